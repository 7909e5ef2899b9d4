//! Seeded random desks, for the tests.

use checker::files::{Edge, Graph, Task};
use desk::Description;

/// SplitMix64.
pub struct Random(pub u64);

impl Random {
    /// A number below the limit, near enough alike for each.
    pub fn below(&mut self, limit: usize) -> usize {
        self.0 = self.0.wrapping_add(0x9E37_79B9_7F4A_7C15);
        let mut mixed = self.0;
        mixed = (mixed ^ (mixed >> 30)).wrapping_mul(0xBF58_476D_1CE4_E5B9);
        mixed = (mixed ^ (mixed >> 27)).wrapping_mul(0x94D0_49BB_1331_11EB);
        ((mixed ^ (mixed >> 31)) % limit as u64) as usize
    }

    /// Any well-formed desk with so many tasks, and as many of the edges as have room: every number of a field can come up, and
    /// tasks of different processors are mixed.
    pub fn desk(&mut self, tasks: usize, edges: usize, proposed: Option<usize>) -> Description {
        let processors = 1 + self.below(16);
        let tasks: Vec<Task> = (0..tasks)
            .map(|_| Task {
                processor: self.below(processors),
                time: 1 + self.below(65_535),
            })
            .collect();
        let across = |edge: &Edge| tasks[edge.source].processor != tasks[edge.sink].processor;
        let graph = Graph {
            edges: self.edges(edges, tasks.len(), across),
            input: self.below(tasks.len()),
            output: self.below(tasks.len()),
            bound: self.below(1 << 23),
            tasks: tasks.clone(),
        };
        let proposal = proposed.map(|edges| self.edges(edges, tasks.len(), |_| true));
        Description { graph, proposal }
    }

    /// Different edges that pass the test, up to so many.
    fn edges(&mut self, most: usize, tasks: usize, passes: impl Fn(&Edge) -> bool) -> Vec<Edge> {
        let mut edges = Vec::new();
        for _ in 0..4 * most {
            let edge = Edge {
                source: self.below(tasks),
                sink: self.below(tasks),
                delay: [0, 1, self.below(256)][self.below(3)],
            };
            if edges.len() < most && passes(&edge) && !edges.contains(&edge) {
                edges.push(edge);
            }
        }
        edges
    }
}
