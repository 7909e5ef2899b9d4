//! Least delays, each row finished before the next is begun.

use crate::files::{Arc, MOST_TASKS};
use crate::schedule::Graph;

/// No path. Least delays are at most 63 × 255; the sum of two of these numbers still fits.
pub const NONE: i16 = 0x3FFF;

/// Delays from one task to each.
pub type Row = [i16; MOST_TASKS];

/// A row for each source.
pub type Table = [Row; MOST_TASKS];

/// What is known of the least delays over one or more edges.
pub struct Known {
    tasks: usize,
    /// Finished rows have the least of all paths, others the least of single edges.
    pub rows: Table,
    /// Which rows are finished.
    finished: u64,
}

impl Known {
    pub const NOTHING: Known = Known {
        tasks: 0,
        rows: [[NONE; MOST_TASKS]; MOST_TASKS],
        finished: 0,
    };

    /// Takes single edges: the processor edges of a graph, and two lists.
    pub fn take_edges(&mut self, graph: &Graph, lists: [&[Arc]; 2]) {
        self.tasks = graph.tasks;
        let own = graph.ring.next.iter().zip(&graph.ring.delay);
        for (row, (&next, &delay)) in self.rows[..graph.tasks].iter_mut().zip(own) {
            row[next as usize % MOST_TASKS] = i16::from(delay);
        }
        for arc in lists.into_iter().flatten() {
            let least = &mut self.rows[arc.source()][arc.sink()];
            *least = (*least).min(arc.delay() as i16);
        }
    }

    /// Takes the edges of an accepted graph and finishes all rows.
    pub fn fill(&mut self, graph: &Graph) {
        self.take_edges(graph, [graph.edges(), &[]]);
        for task in (0..graph.tasks).rev() {
            self.finish(task);
        }
    }

    /// The same where a task counts 0 to itself.
    pub fn fill_from_0(&mut self, graph: &Graph) {
        self.fill(graph);
        for (task, row) in self.rows.iter_mut().take(graph.tasks).enumerate() {
            row[task] = 0;
        }
    }

    /// Whether a path of at most its delay leads from an edge's source to its sink. Finishes the source's row only where no single edge
    /// is enough.
    pub fn enforces(&mut self, arc: Arc) -> bool {
        let (source, sink, most) = (arc.source(), arc.sink(), arc.delay() as i16);
        if self.rows[source][sink] > most && self.finished >> source & 1 == 0 {
            self.finish(source);
        }
        self.rows[source][sink] <= most
    }

    /// Finishes the row of a task: goes on from tasks to which it has a lesser way than was seen, until there are none. A finished row
    /// has all ways on from its task, so that they count as seen with it.
    fn finish(&mut self, task: usize) {
        // A bound that the compiler sees spares a test at each index.
        let tasks = self.tasks.min(MOST_TASKS);
        let mut lowered = self.rows[task];
        let mut seen = [NONE; MOST_TASKS];
        let mut at = task;
        while let Some(next) = next_below(&lowered, &seen, tasks, at) {
            at = next;
            let (row, way) = (&self.rows[at], lowered[at]);
            lower(&mut lowered, row, way);
            if self.finished >> at & 1 == 1 {
                lower(&mut seen, row, way);
            }
            seen[at] = way;
        }
        self.rows[task] = lowered;
        self.finished |= 1 << task;
    }
}

/// The next of so many tasks after one, round the end, that has less in a row than in the other.
#[inline(always)]
fn next_below(row: &Row, other: &Row, tasks: usize, after: usize) -> Option<usize> {
    let below = |&task: &usize| row[task] < other[task];
    (after + 1..tasks)
        .find(below)
        .or_else(|| (0..=after).find(below))
}

/// Lowers a row to another and so much more.
#[inline(always)]
fn lower(row: &mut Row, other: &Row, more: i16) {
    for (to, from) in row.iter_mut().zip(other) {
        *to = (*to).min(from + more);
    }
}

/// Writes an accepted graph's least delays.
pub fn write(graph: &Graph, list: &mut [u16]) {
    let mut known = Known::NOTHING;
    known.fill(graph);
    for (to, row) in list.chunks_exact_mut(graph.tasks).zip(&known.rows) {
        for (to, &delay) in to.iter_mut().zip(row) {
            *to = if delay == NONE {
                u16::MAX
            } else {
                delay as u16
            };
        }
    }
}
