//! What the calls hand over.

use crate::{Edge, MOST_EDGES, NO_PATH};

/// A graph's figures.
#[derive(Clone, Copy, Debug, PartialEq, Eq)]
pub struct Figures {
    /// Number of tasks, 2 to 64.
    pub tasks: usize,
    /// Number of synchronization edges, 0 to 256; processor edges do not count.
    pub edges: usize,
    /// When the output's first turn ends, if tasks start as early as allowed and take their estimated times.
    pub latency: u32,
}

/// The least delay from each task to each.
#[derive(Clone, Debug, PartialEq, Eq)]
pub struct LeastDelays {
    pub(crate) tasks: usize,
    pub(crate) table: Vec<u16>,
}

impl LeastDelays {
    /// Number of tasks, and so of rows and of delays in each.
    pub fn tasks(&self) -> usize {
        self.tasks
    }

    /// The least delay from one task to another, or from a task to itself over its cycles. None if no path leads there, or if the graph has
    /// no such task.
    pub fn get(&self, from: usize, to: usize) -> Option<u16> {
        let delay = *self.rows().nth(from)?.get(to)?;
        (delay != NO_PATH).then_some(delay)
    }

    /// A row for each task that paths begin at, in order, with the delay to each task; [`NO_PATH`] for none.
    pub fn rows(&self) -> impl ExactSizeIterator<Item = &[u16]> {
        self.table.chunks_exact(self.tasks)
    }
}

/// The redundant edges of a graph.
#[derive(Clone, Copy, Debug, PartialEq, Eq)]
pub struct Redundant {
    pub(crate) words: [u64; 4],
    pub(crate) count: usize,
}

impl Redundant {
    /// How many edges are redundant.
    pub fn count(&self) -> usize {
        self.count
    }

    /// Whether the edge at this place, from 1, is redundant. No, if the graph has no such edge.
    pub fn contains(&self, place: usize) -> bool {
        (1..=MOST_EDGES).contains(&place) && {
            let mark = place - 1;
            (self.words[mark / 64] << (mark % 64)) >> 63 == 1
        }
    }

    /// The places of the redundant edges, ascending, from 1.
    pub fn places(&self) -> impl Iterator<Item = usize> + '_ {
        (1..=MOST_EDGES).filter(|&place| self.contains(place))
    }

    /// The 256 marks: edge 1 is the most significant bit of the first word.
    pub fn words(&self) -> [u64; 4] {
        self.words
    }
}

/// The earliest start of each task in each turn.
#[derive(Clone, Debug, PartialEq, Eq)]
pub struct Timetable {
    pub(crate) tasks: usize,
    pub(crate) starts: Vec<u32>,
}

impl Timetable {
    /// Number of tasks, and so of starts in each turn.
    pub fn tasks(&self) -> usize {
        self.tasks
    }

    /// The start of a task in a turn, turns from 1. None if there is no such turn or no such task.
    pub fn start(&self, turn: usize, task: usize) -> Option<u32> {
        self.turns().nth(turn.checked_sub(1)?)?.get(task).copied()
    }

    /// The starts of each turn, in order, one for each task.
    pub fn turns(&self) -> impl ExactSizeIterator<Item = &[u32]> {
        self.starts.chunks_exact(self.tasks)
    }
}

/// An accepted proposal's figures.
#[derive(Clone, Copy, Debug, PartialEq, Eq)]
pub struct Accepted {
    /// Latency of the result.
    pub latency: u32,
    /// Bound less latency: 0 or more.
    pub margin: i32,
}

/// A plan.
#[derive(Clone, Debug, PartialEq, Eq)]
pub struct Plan {
    /// The feedforward edges left, in the file's sequence, then the added ones.
    pub edges: Vec<Edge>,
    /// How many steps it took; each added one edge in place of two or more.
    pub steps: usize,
    /// Latency with the plan's edges.
    pub latency: u32,
}

/// The figures of a plan whose edges stand in a lent list.
#[derive(Clone, Copy, Debug, PartialEq, Eq)]
pub struct PlanFigures {
    /// How many edges were written.
    pub length: usize,
    /// How many steps it took; each added one edge in place of two or more.
    pub steps: usize,
    /// Latency with the plan's edges.
    pub latency: u32,
}
