//! Accepted graphs: processor edges, the sequence of the first turn, latency, and refusals 9 to 12.

use crate::files::{read_graph, Arc, Fields, MOST_TASKS};
use crate::refuse;
use resync::raw::Refusal;
use std::ops::Deref;

/// An accepted graph.
pub struct Graph {
    fields: Fields,
    pub ring: Ring,
    pub undelayed: Undelayed,
    pub first_turn: FirstTurn,
    pub latency: u32,
}

impl Deref for Graph {
    type Target = Fields;

    fn deref(&self) -> &Fields {
        &self.fields
    }
}

/// The processor edge out of each task: its sink, and its delay.
pub struct Ring {
    pub next: [u8; MOST_TASKS],
    pub delay: [u8; MOST_TASKS],
}

/// The edges of delay 0: a word of sinks and a word of sources for each task.
#[derive(Clone)]
pub struct Undelayed {
    pub sinks: [u64; MOST_TASKS],
    pub sources: [u64; MOST_TASKS],
}

/// The first turn at the estimated times.
pub struct FirstTurn {
    /// All tasks, each after those that it waits for.
    pub sequence: [u8; MOST_TASKS],
    pub starts: [u32; MOST_TASKS],
}

impl Graph {
    pub fn new() -> Graph {
        Graph {
            fields: Fields::new(),
            ring: Ring {
                next: [0; MOST_TASKS],
                delay: [0; MOST_TASKS],
            },
            undelayed: Undelayed::new(),
            first_turn: FirstTurn::new(),
            latency: 0,
        }
    }

    /// Reads a graph file into a new graph and judges it up to refusal 12.
    #[inline(always)]
    pub fn accept(&mut self, file: &[u8]) -> Result<&Graph, Refusal> {
        read_graph(file, &mut self.fields)?;
        self.ring.fill(&self.fields);
        let fields = &self.fields;
        self.undelayed.add_ring(&self.ring, fields.tasks);
        self.undelayed.add_all(&fields.arcs[..fields.edges]);
        let turn = &mut self.first_turn;
        if !turn.fill(&self.undelayed, &fields.time, fields.tasks) {
            return refuse(9, 0);
        }
        if self.undelayed.sources[fields.input] != 0 {
            return refuse(10, 0);
        }
        if !self.undelayed.leads(turn, fields) {
            return refuse(11, 0);
        }
        self.latency = turn.starts[fields.output] + fields.time[fields.output];
        if fields.bound < self.latency {
            return refuse(12, 0);
        }
        Ok(self)
    }

    /// The edges of the file.
    pub fn edges(&self) -> &[Arc] {
        &self.arcs[..self.fields.edges]
    }
}

impl Ring {
    fn fill(&mut self, fields: &Fields) {
        let ring = self;
        // First and last task so far of each processor.
        let mut ends: [Option<(u8, u8)>; 16] = [None; 16];
        for task in 0..fields.tasks {
            let end = &mut ends[fields.processor[task] as usize % 16];
            let first = match *end {
                Some((first, last)) => {
                    ring.next[last as usize] = task as u8;
                    first
                }
                None => task as u8,
            };
            *end = Some((first, task as u8));
        }
        for (first, last) in ends.into_iter().flatten() {
            ring.next[last as usize] = first;
            ring.delay[last as usize] = 1;
        }
    }
}

/// The numbers of the ones of a word, ascending.
pub fn ones(mut word: u64) -> impl Iterator<Item = usize> {
    std::iter::from_fn(move || {
        let one = (word != 0).then_some(word.trailing_zeros() as usize);
        word &= word.wrapping_sub(1);
        one
    })
}

/// A word with the front ones set.
pub fn front(count: usize) -> u64 {
    u64::MAX >> (64 - count)
}

impl Undelayed {
    pub fn new() -> Undelayed {
        Undelayed {
            sinks: [0; MOST_TASKS],
            sources: [0; MOST_TASKS],
        }
    }

    pub fn add_ring(&mut self, ring: &Ring, tasks: usize) {
        for task in 0..tasks {
            let next = ring.next[task] as usize % MOST_TASKS;
            let bit = u64::from(ring.delay[task] == 0);
            self.sinks[task % MOST_TASKS] |= bit << next;
            self.sources[next] |= bit << task;
        }
    }

    pub fn add_all(&mut self, arcs: &[Arc]) {
        for arc in arcs {
            let bit = u64::from(arc.delay() == 0);
            self.sinks[arc.source()] |= bit << arc.sink();
            self.sources[arc.sink()] |= bit << arc.source();
        }
    }

    /// Whether a path of one or more edges leads from the latency input to the output.
    fn leads(&self, turn: &FirstTurn, fields: &Fields) -> bool {
        let mut reached = self.sinks[fields.input];
        for &task in &turn.sequence[..fields.tasks] {
            let task = task as usize % MOST_TASKS;
            reached |= self.sinks[task] & (reached >> task & 1).wrapping_neg();
        }
        reached >> fields.output & 1 == 1
    }
}

impl FirstTurn {
    pub fn new() -> FirstTurn {
        FirstTurn {
            sequence: [0; MOST_TASKS],
            starts: [0; MOST_TASKS],
        }
    }

    /// Makes the first turn, if nothing was made yet; false if there is a cycle.
    pub fn fill(&mut self, undelayed: &Undelayed, time: &[u32; MOST_TASKS], tasks: usize) -> bool {
        let mut ready = 0;
        for task in 0..tasks {
            ready |= u64::from(undelayed.sources[task] == 0) << task;
        }
        let mut waiting = front(tasks);
        let mut done = 0;
        while ready != 0 {
            let task = ready.trailing_zeros() as usize;
            ready &= ready - 1;
            waiting &= !(1 << task);
            self.sequence[done % MOST_TASKS] = task as u8;
            done += 1;
            let end = self.starts[task] + time[task];
            for sink in ones(undelayed.sinks[task]) {
                self.starts[sink] = self.starts[sink].max(end);
                ready |= u64::from(undelayed.sources[sink] & waiting == 0) << sink;
            }
        }
        done == tasks
    }
}
