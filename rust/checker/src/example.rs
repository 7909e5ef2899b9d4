//! Document 01's example desk, for the tests of each part.

use crate::files::{Edge, Graph, Task};

pub fn edge(source: usize, sink: usize, delay: usize) -> Edge {
    Edge {
        source,
        sink,
        delay,
    }
}

pub fn desk() -> Graph {
    let task = |processor, time| Task { processor, time };
    Graph {
        tasks: vec![task(0, 2), task(0, 3), task(1, 1), task(1, 4)],
        edges: vec![edge(0, 2, 0), edge(1, 3, 0), edge(0, 3, 0)],
        input: 0,
        output: 3,
        bound: 12,
    }
}
