//! The timetable.

use crate::files::{Arc, MOST_EDGES, MOST_TASKS};
use crate::schedule::Graph;

/// An edge into a task.
#[derive(Clone, Copy, Default)]
struct Wait {
    /// Where its source stands in the list, counted from the sink's turn, and wrapping below 0.
    offset: u32,
    /// The source's time.
    time: u32,
    sink: u32,
    /// All ones if another edge into the sink follows, else 0.
    more: u32,
}

/// Writes the starts of so many turns.
pub fn write(graph: &Graph, turns: usize, list: &mut [u32]) {
    let mut waits = [Wait::default(); MOST_TASKS + MOST_EDGES];
    let count = fill(&mut waits, graph, turns);
    // One loop over all edges: a loop for each task would end where the processor does not expect it.
    for turn in 0..turns {
        let base = turn * graph.tasks;
        let mut start = 0;
        for wait in &waits[..count] {
            // A turn before the first is no place of the list.
            let from = (base as u32).wrapping_add(wait.offset);
            let after = list.get(from as usize).map_or(0, |from| from + wait.time);
            start = start.max(after);
            list[base + wait.sink as usize] = start;
            start &= wait.more;
        }
    }
}

/// Fills in the edges that matter, sinks in the sequence of the first turn, and returns their number.
fn fill(waits: &mut [Wait; MOST_TASKS + MOST_EDGES], graph: &Graph, turns: usize) -> usize {
    let mut before = [(0, 0); MOST_TASKS];
    for task in 0..graph.tasks {
        let next = graph.ring.next[task] as usize % MOST_TASKS;
        before[next] = (task, graph.ring.delay[task] as usize);
    }
    let (begin, arcs) = by_sink(graph);
    let mut count = 0;
    let mut put = |source: usize, sink: usize, delay: usize, more: u32| {
        waits[count] = Wait {
            offset: source.wrapping_sub(delay * graph.tasks) as u32,
            time: graph.time[source % MOST_TASKS],
            sink: sink as u32,
            more,
        };
        count += 1;
    };
    for &task in &graph.first_turn.sequence[..graph.tasks] {
        let task = task as usize % MOST_TASKS;
        for &arc in &arcs[begin[task] as usize..begin[task + 1] as usize] {
            if arc.delay() < turns {
                put(arc.source(), task, arc.delay(), u32::MAX);
            }
        }
        let (source, delay) = before[task];
        put(source, task, delay, 0);
    }
    count
}

/// The edges of the file grouped by sink, and where groups begin.
fn by_sink(graph: &Graph) -> ([u16; MOST_TASKS + 1], [Arc; MOST_EDGES]) {
    let mut begin = [0; MOST_TASKS + 1];
    let mut arcs = [Arc(0); MOST_EDGES];
    for arc in graph.edges() {
        begin[arc.sink() + 1] += 1;
    }
    for task in 0..MOST_TASKS {
        begin[task + 1] += begin[task];
    }
    let mut at = begin;
    for &arc in graph.edges() {
        let at = &mut at[arc.sink()];
        arcs[*at as usize % MOST_EDGES] = arc;
        *at += 1;
    }
    (begin, arcs)
}
