//! Redundant edges.

use crate::delays::{Known, Row, Table, NONE};
use crate::files::{MOST_EDGES, MOST_TASKS};
use crate::schedule::Graph;

/// All edges of a graph, grouped by source.
struct Outgoing {
    /// Where each source's group begins; one more for the end.
    begin: [u16; MOST_TASKS + 1],
    /// Sink, and delay.
    ends: [(u8, u8); MOST_TASKS + MOST_EDGES],
}

impl Outgoing {
    fn new(graph: &Graph) -> Outgoing {
        let mut outgoing = Outgoing {
            begin: [0; MOST_TASKS + 1],
            ends: [(0, 0); MOST_TASKS + MOST_EDGES],
        };
        let begin = &mut outgoing.begin;
        for arc in graph.edges() {
            begin[arc.source() + 1] += 1;
        }
        // One processor edge each.
        for task in 0..graph.tasks {
            begin[task + 1] += begin[task] + 1;
        }
        let mut at = *begin;
        let own = graph.ring.next.iter().zip(&graph.ring.delay);
        for (at, own) in at[..graph.tasks].iter_mut().zip(own) {
            outgoing.ends[*at as usize] = (*own.0, *own.1);
            *at += 1;
        }
        for arc in graph.edges() {
            let at = &mut at[arc.source()];
            outgoing.ends[*at as usize] = (arc.sink() as u8, arc.delay() as u8);
            *at += 1;
        }
        outgoing
    }

    /// Sinks and delays of the edges out of a task.
    fn of(&self, task: usize) -> &[(u8, u8)] {
        &self.ends[self.begin[task] as usize..self.begin[task + 1] as usize]
    }
}

/// 256 marks: edge 1 is the most significant bit of the first word.
pub fn marks(graph: &Graph) -> [u64; 4] {
    let mut known = Known::NOTHING;
    known.fill_from_0(graph);
    marks_of(graph, &known.rows)
}

/// From so many edges out of a task, they are gone through for all sinks at once.
const MANY: usize = 24;

/// The same by the table where a task counts 0 to itself. An edge is redundant if two edges out of its source, of which it is one, begin
/// paths to its sink of at most its delay: another path that came back to the edge would go round a cycle first, and no cycle has delay 0.
pub fn marks_of(graph: &Graph, table: &Table) -> [u64; 4] {
    let outgoing = Outgoing::new(graph);
    let mut second = [[0; MOST_TASKS]; MOST_EDGES / (MANY - 1)];
    let mut row_of = [None; MOST_TASKS];
    let crowded = (0..graph.tasks).filter(|&task| outgoing.of(task).len() >= MANY);
    for ((at, row), task) in second.iter_mut().enumerate().zip(crowded) {
        *row = second_least(outgoing.of(task), table);
        row_of[task] = Some(at as u8);
    }

    let mut words = [0; 4];
    for (at, arc) in graph.edges().iter().enumerate() {
        let (source, to, most) = (arc.source(), arc.sink(), arc.delay() as i16);
        // A lesser path does not take the edge.
        let redundant = table[source][to] < most
            || match row_of[source] {
                Some(row) => second[row as usize][to] <= most,
                None => {
                    let begins = |&&(sink, delay): &&(u8, u8)| {
                        i16::from(delay) + table[sink as usize][to] <= most
                    };
                    outgoing.of(source).iter().filter(begins).count() > 1
                }
            };
        words[at / 64 % 4] |= u64::from(redundant) << (63 - at % 64);
    }
    words
}

/// For each task the second least delay of the paths to it that these edges begin.
fn second_least(edges: &[(u8, u8)], table: &Table) -> Row {
    let (mut least, mut second) = ([NONE; MOST_TASKS], [NONE; MOST_TASKS]);
    for &(sink, delay) in edges {
        let row = &table[sink as usize];
        for ((least, second), &rest) in least.iter_mut().zip(&mut second).zip(row) {
            let sum = rest + i16::from(delay);
            *second = (*second).min((*least).max(sum));
            *least = (*least).min(sum);
        }
    }
    second
}
