//! Seeded random numbers, and random files made from them. The same seed gives the same files on every machine.

pub mod damage;
pub mod desk;
pub mod desks;
pub mod faults;
pub mod lists;
pub mod pairs;
pub mod plans;
pub mod proposals;
pub mod trials;

use checker::files::{Edge, Graph, Task};

/// Splitmix64.
pub struct Generator {
    state: u64,
}

impl Generator {
    pub fn new(seed: u64) -> Generator {
        Generator { state: seed }
    }

    pub fn word(&mut self) -> u64 {
        self.state = self.state.wrapping_add(0x9E37_79B9_7F4A_7C15);
        let mut word = self.state;
        word = (word ^ (word >> 30)).wrapping_mul(0xBF58_476D_1CE4_E5B9);
        word = (word ^ (word >> 27)).wrapping_mul(0x94D0_49BB_1331_11EB);
        word ^ (word >> 31)
    }

    /// A number from `low` to `high`, both included.
    pub fn between(&mut self, low: usize, high: usize) -> usize {
        let choices = (high - low + 1) as u64;
        low + (self.word() % choices) as usize
    }

    /// Yes, once in so many times.
    pub fn once_in(&mut self, times: usize) -> bool {
        self.between(1, times) == 1
    }

    pub fn pick(&mut self, choices: &[usize]) -> usize {
        choices[self.between(0, choices.len() - 1)]
    }

    pub fn shuffle<T>(&mut self, list: &mut [T]) {
        for last in (1..list.len()).rev() {
            list.swap(last, self.between(0, last));
        }
    }

    pub fn bytes(&mut self, length: usize) -> Vec<u8> {
        (0..length).map(|_| self.word() as u8).collect()
    }

    /// A number of tasks of a graph: half of them small.
    pub fn task_count(&mut self) -> usize {
        if self.once_in(2) {
            self.between(2, 8)
        } else {
            self.between(2, 64)
        }
    }

    /// A number of edges of a file: most of them small, where faults meet more often.
    fn edge_count(&mut self) -> usize {
        if self.once_in(4) {
            self.between(0, 256)
        } else {
            self.between(0, 16)
        }
    }

    fn delay(&mut self) -> usize {
        if self.once_in(2) {
            self.between(0, 2)
        } else {
            self.between(0, 255)
        }
    }

    fn time(&mut self) -> usize {
        match self.between(0, 3) {
            0 => self.pick(&[1, 255, 256, 65_535]),
            1 => self.between(1, 9),
            _ => self.between(1, 65_535),
        }
    }

    /// Tasks on a few or many processors; on at least two if `apart`.
    fn tasks(&mut self, count: usize, apart: bool) -> Vec<Task> {
        let processors = self.between(1, 16);
        let shift = self.between(0, 15);
        let mut tasks = Vec::new();
        for _ in 0..count {
            let processor = (self.between(1, processors) + shift) % 16;
            let time = self.time();
            tasks.push(Task { processor, time });
        }
        if apart && tasks.iter().all(|t| t.processor == tasks[0].processor) {
            let moved = self.between(0, count - 1);
            tasks[moved].processor = (tasks[moved].processor + self.between(1, 15)) % 16;
        }
        tasks
    }

    /// A well-formed graph of this size.
    pub fn graph(&mut self, task_count: usize, edge_count: usize) -> Graph {
        let tasks = self.tasks(task_count, edge_count > 0);
        let mut edges = Vec::new();
        while edges.len() < edge_count {
            let edge = self.edge(task_count);
            let within = tasks[edge.source].processor == tasks[edge.sink].processor;
            if !within && !edges.contains(&edge) {
                edges.push(edge);
            }
        }
        let bound = match self.between(0, 3) {
            0 => self.pick(&[0, 1, (1 << 23) - 1]),
            _ => self.between(0, (1 << 23) - 1),
        };
        Graph {
            tasks,
            edges,
            input: self.between(0, task_count - 1),
            output: self.between(0, task_count - 1),
            bound,
        }
    }

    /// A well-formed graph of any size.
    pub fn any_graph(&mut self) -> Graph {
        let task_count = self.task_count();
        let edge_count = self.edge_count();
        self.graph(task_count, edge_count)
    }

    /// A well-formed proposal of this size for a graph of so many tasks.
    pub fn proposal(&mut self, task_count: usize, edge_count: usize) -> Vec<Edge> {
        let mut edges = Vec::new();
        while edges.len() < edge_count {
            let edge = self.edge(task_count);
            if !edges.contains(&edge) {
                edges.push(edge);
            }
        }
        edges
    }

    /// A well-formed proposal of any size for a graph of so many tasks.
    pub fn any_proposal(&mut self, task_count: usize) -> Vec<Edge> {
        let edge_count = self.edge_count();
        self.proposal(task_count, edge_count)
    }

    fn edge(&mut self, task_count: usize) -> Edge {
        Edge {
            source: self.between(0, task_count - 1),
            sink: self.between(0, task_count - 1),
            delay: self.delay(),
        }
    }
}
