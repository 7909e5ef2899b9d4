//! Random graphs that are accepted, and ways to spoil them so that refusals 9 to 12 are near.

use super::Generator;
use checker::files::{Edge, Graph, Task};
use checker::schedule;

pub const LARGEST_BOUND: usize = (1 << 23) - 1;

/// What edges of a graph may be.
struct Manner {
    /// Place of each task in the sequence that edges of delay 0 follow.
    rank: Vec<usize>,
    /// Edges against the sequence: none if 0, any if 1, else about one in so many.
    back_once_in: usize,
    /// The sort of delays.
    delays: usize,
}

impl Generator {
    /// An accepted graph of any size, half of them small.
    pub fn any_accepted_graph(&mut self) -> Graph {
        let task_count = self.task_count();
        let edge_count = self.edge_count();
        self.accepted_graph(task_count, edge_count)
    }

    /// An accepted graph of this size.
    pub fn accepted_graph(&mut self, task_count: usize, edge_count: usize) -> Graph {
        loop {
            let tasks = self.desk(task_count, edge_count > 0);
            if let Some(graph) = self.accepted_graph_of(tasks, edge_count) {
                return graph;
            }
        }
    }

    /// Tasks spread over processors at random, in turn or in blocks, with times of many sorts.
    fn desk(&mut self, count: usize, apart: bool) -> Vec<Task> {
        let mut tasks = self.tasks(count, apart);
        let processors = self.between(2, 16);
        match self.between(0, 3) {
            0 => (0..count).for_each(|v| tasks[v].processor = v % processors),
            1 => (0..count).for_each(|v| tasks[v].processor = v * processors.min(count) / count),
            _ => (),
        }
        match self.between(0, 3) {
            0 => tasks.iter_mut().for_each(|task| task.time = 65_535),
            1 => tasks
                .iter_mut()
                .for_each(|task| task.time = self.between(1, 3)),
            _ => (),
        }
        tasks
    }

    /// An accepted graph of these tasks, if one was found soon.
    pub fn accepted_graph_of(&mut self, tasks: Vec<Task>, edge_count: usize) -> Option<Graph> {
        let sequence = self.sequence(&tasks);
        let mut rank = vec![0; tasks.len()];
        for (place, &task) in sequence.iter().enumerate() {
            rank[task] = place;
        }
        let manner = Manner {
            rank,
            back_once_in: self.pick(&[0, 0, 10, 1]),
            delays: self.between(0, 5),
        };
        let firsts: Vec<usize> = (0..tasks.len())
            .filter(|&v| (0..v).all(|u| tasks[u].processor != tasks[v].processor))
            .collect();
        let mut graph = Graph {
            tasks,
            edges: Vec::new(),
            input: self.pick(&firsts),
            output: 0,
            bound: 0,
        };

        // Often a way out of the input, and now and then a long chain of delay 0.
        let mut links = Vec::new();
        if !self.once_in(4) {
            links.push((graph.input, self.between(0, graph.tasks.len() - 1)));
        }
        if self.once_in(4) {
            links.extend(sequence.windows(2).map(|pair| (pair[0], pair[1])));
        }
        for (source, sink) in links {
            let edge = Edge {
                source,
                sink,
                delay: 0,
            };
            if graph.edges.len() < edge_count && may_be_undelayed(&graph, &manner, edge) {
                add_edge(&mut graph, edge);
            }
        }
        for _ in 0..100 * (edge_count + 10) {
            if graph.edges.len() < edge_count {
                let edge = self.edge_in(&graph, &manner);
                add_edge(&mut graph, edge);
            }
        }
        if graph.edges.len() < edge_count {
            return None;
        }
        self.shuffle(&mut graph.edges);

        let undelayed = schedule::undelayed_edges(&graph);
        let ends = schedule::ends_of_paths(&undelayed, graph.input);
        let ends: Vec<usize> = ends.into_iter().collect();
        if ends.is_empty() {
            return None;
        }
        graph.output = self.pick(&ends);
        let slack = match self.between(0, 3) {
            0 => 0,
            1 => 1,
            2 => self.between(0, 1000),
            _ => self.between(0, LARGEST_BOUND),
        };
        graph.bound = (schedule::latency(&graph) + slack).min(LARGEST_BOUND);
        Some(graph)
    }

    /// Sets some delays of an accepted graph so that the edge is just redundant, or just not. It stays accepted.
    pub fn tune_delays(&mut self, graph: &mut Graph) {
        for place in 0..graph.edges.len().min(20) {
            let mut tuned = graph.edges.remove(place);
            let edges = schedule::all_edges(graph);
            let (from, to) = (tuned.source, tuned.sink);
            let least = schedule::least_delay(graph.tasks.len(), &edges, from, to);
            let before = tuned;
            if let Some(least) = least.filter(|&least| tuned.delay > 0 && least > 1) {
                tuned.delay = (least - self.between(0, 1)).min(255);
            }
            if graph.edges.contains(&tuned) {
                tuned = before;
            }
            graph.edges.insert(place, tuned);
        }
    }

    /// The tasks in a sequence that keeps to that of each processor: by number, processor after processor, or mixed.
    fn sequence(&mut self, tasks: &[Task]) -> Vec<usize> {
        let mut processors: Vec<usize> = (0..16).collect();
        self.shuffle(&mut processors);
        // Whose turn it is.
        let mut turns: Vec<usize> = tasks.iter().map(|task| task.processor).collect();
        match self.between(0, 4) {
            0 => (),
            1 | 2 => turns.sort_by_key(|&processor| processors[processor]),
            _ => self.shuffle(&mut turns),
        }
        let mut sequence = Vec::new();
        for processor in turns {
            let next = (0..tasks.len())
                .find(|v| tasks[*v].processor == processor && !sequence.contains(v));
            sequence.extend(next);
        }
        sequence
    }

    fn edge_in(&mut self, graph: &Graph, manner: &Manner) -> Edge {
        let mut edge = self.edge(graph.tasks.len());
        edge.delay = match manner.delays {
            0 => 0,
            1 => self.between(0, 2),
            2 => self.between(0, 63),
            3 => self.between(0, 255),
            4 => self.pick(&[0, 0, 253, 254, 255]),
            _ => edge.delay,
        };
        let back = manner.rank[edge.source] > manner.rank[edge.sink];
        if back && (manner.back_once_in == 0 || !self.once_in(manner.back_once_in)) {
            (edge.source, edge.sink) = (edge.sink, edge.source);
        }
        if edge.delay == 0 && !may_be_undelayed(graph, manner, edge) {
            edge.delay = match self.between(0, 2) {
                0 => 1,
                1 => self.between(1, 5),
                _ => self.between(1, 255),
            };
        }
        // So that few tasks can have many edges too.
        if self.once_in(8) {
            edge.delay = self.between(1, 255);
        }
        edge
    }
}

fn may_be_undelayed(graph: &Graph, manner: &Manner, edge: Edge) -> bool {
    manner.rank[edge.source] < manner.rank[edge.sink] && edge.sink != graph.input
}

/// Adds an edge if the graph stays well-formed with it, but for the number of edges.
fn add_edge(graph: &mut Graph, edge: Edge) {
    let within = graph.tasks[edge.source].processor == graph.tasks[edge.sink].processor;
    if !within && !graph.edges.contains(&edge) {
        graph.edges.push(edge);
    }
}

/// Adds an edge, in place of another if there are 256, at any place. If the graph would not stay well-formed, none is added, and of
/// 256 one is still gone.
fn put_edge(g: &mut Generator, graph: &mut Graph, edge: Edge) {
    if graph.edges.len() == 256 {
        let place = g.between(0, 255);
        graph.edges.remove(place);
    }
    add_edge(graph, edge);
    if !graph.edges.is_empty() {
        let place = g.between(0, graph.edges.len() - 1);
        let last = graph.edges.len() - 1;
        graph.edges.swap(place, last);
    }
}

/// Changes an edge, unless the graph would not be well-formed then.
fn change_edge(g: &mut Generator, graph: &mut Graph, change: fn(&mut Edge)) {
    if !graph.edges.is_empty() {
        let place = g.between(0, graph.edges.len() - 1);
        let mut changed = graph.edges[place];
        change(&mut changed);
        if !graph.edges.contains(&changed) {
            graph.edges[place] = changed;
        }
    }
}

/// A name, and what spoils the graph.
pub type Fault = (&'static str, fn(&mut Generator, &mut Graph));

/// Ways to spoil an accepted graph. Where there is nothing to spoil in that way, or by luck, it may stay accepted.
pub const FAULTS: [Fault; 16] = [
    ("an edge back along a path of delay 0", |g, graph| {
        let task = g.between(0, graph.tasks.len() - 1);
        let undelayed = schedule::undelayed_edges(graph);
        let ends = schedule::ends_of_paths(&undelayed, task);
        if !ends.is_empty() {
            let end = g.pick(&ends.into_iter().collect::<Vec<usize>>());
            let edge = Edge {
                source: end,
                sink: task,
                delay: 0,
            };
            put_edge(g, graph, edge);
        }
    }),
    ("an edge turned round", |g, graph| {
        change_edge(g, graph, |edge| {
            (edge.source, edge.sink) = (edge.sink, edge.source);
        });
    }),
    ("a delay made 0", |g, graph| {
        change_edge(g, graph, |edge| edge.delay = 0);
    }),
    ("an edge of delay 0 anywhere", |g, graph| {
        let mut edge = g.edge(graph.tasks.len());
        edge.delay = 0;
        put_edge(g, graph, edge);
    }),
    ("an edge of delay 0 into the input", |g, graph| {
        let mut edge = g.edge(graph.tasks.len());
        edge.delay = 0;
        edge.sink = graph.input;
        put_edge(g, graph, edge);
    }),
    ("another input", |g, graph| {
        graph.input = g.between(0, graph.tasks.len() - 1);
    }),
    ("the next task on its processor as input", |_, graph| {
        let tasks = &graph.tasks;
        let mut later = graph.input + 1..tasks.len();
        let next = later.find(|&v| tasks[v].processor == tasks[graph.input].processor);
        graph.input = next.unwrap_or(graph.input);
    }),
    ("the input as output", |_, graph| graph.output = graph.input),
    ("another output", |g, graph| {
        graph.output = g.between(0, graph.tasks.len() - 1);
        graph.bound = LARGEST_BOUND;
    }),
    ("one delay more", |g, graph| {
        change_edge(g, graph, |edge| edge.delay = (edge.delay + 1).min(255));
    }),
    ("no delay 0", |_, graph| {
        graph.edges.retain(|edge| edge.delay > 0);
    }),
    ("a task put on another processor", |g, graph| {
        let task = g.between(0, graph.tasks.len() - 1);
        graph.tasks[task].processor = g.between(0, 15);
        let tasks = &graph.tasks;
        graph
            .edges
            .retain(|edge| tasks[edge.source].processor != tasks[edge.sink].processor);
    }),
    ("the bound below the latency by 1", |g, graph| {
        lower_bound(g, graph, 1);
    }),
    ("the bound below the latency", |g, graph| {
        lower_bound(g, graph, LARGEST_BOUND);
    }),
    ("the bound lower", |g, graph| {
        graph.bound = g.between(0, graph.bound);
    }),
    ("a longer time", |g, graph| {
        let task = g.between(0, graph.tasks.len() - 1);
        graph.tasks[task].time = g.between(graph.tasks[task].time, 65_535);
    }),
];

/// Sets the bound below the latency by 1 to `most`, if there is a latency.
fn lower_bound(g: &mut Generator, graph: &mut Graph, most: usize) {
    let undelayed = schedule::undelayed_edges(graph);
    let cycle = (0..graph.tasks.len()).any(|v| schedule::ends_of_paths(&undelayed, v).contains(&v));
    if !cycle {
        let latency = schedule::latency(graph);
        graph.bound = latency - g.between(1, most.min(latency));
    }
}
