//! Random graphs whose plans take steps, and graphs made so that candidates tie or steps are many.

use super::desks::LARGEST_BOUND;
use super::Generator;
use checker::files::{Edge, Graph, Task};
use checker::plans;
use checker::schedule;

impl Generator {
    /// An accepted graph of so many tasks, with at most so many edges and the largest bound, for plans of several steps.
    pub fn graph_to_plan(&mut self, task_count: usize, edge_count: usize) -> Graph {
        let processors = self.between(2, task_count.min(16));
        self.graph_to_plan_on(processors, task_count, edge_count)
    }

    /// The same on so many processors, at most.
    ///
    /// They stand in a sequence, and edges lead to a later one, so they are feedforward. Only neighbours in it may be joined both ways.
    pub fn graph_to_plan_on(
        &mut self,
        processors: usize,
        task_count: usize,
        edge_count: usize,
    ) -> Graph {
        loop {
            let tasks = self.tasks_on(processors, task_count);
            let edges = self.edges_forward(&tasks, edge_count);
            let mut graph = Graph {
                tasks,
                edges,
                input: 0,
                output: 0,
                bound: LARGEST_BOUND,
            };
            let undelayed = schedule::undelayed_edges(&graph);
            let inputs = (0..task_count).filter(|v| undelayed.iter().all(|edge| edge.sink != *v));
            let inputs: Vec<usize> = inputs.collect();
            graph.input = self.pick(&inputs);
            let ends = schedule::ends_of_paths(&undelayed, graph.input);
            if ends.is_empty() {
                continue;
            }
            graph.output = self.pick(&ends.into_iter().collect::<Vec<usize>>());
            assert_eq!(schedule::judge(&graph), Ok(()));
            return graph;
        }
    }

    /// Tasks in turn, in blocks or at random; short times often, so that paths are equally long.
    fn tasks_on(&mut self, processors: usize, count: usize) -> Vec<Task> {
        let spread = self.between(0, 2);
        let longest = self.pick(&[1, 3, 9, 65_535]);
        let tasks = (0..count).map(|v| Task {
            processor: match spread {
                0 => v % processors,
                1 => v * processors / count,
                _ => self.between(0, processors - 1),
            },
            time: self.between(1, longest),
        });
        tasks.collect()
    }

    /// Edges along a sequence of the processors, at most so many.
    fn edges_forward(&mut self, tasks: &[Task], count: usize) -> Vec<Edge> {
        let mut rank: Vec<usize> = (0..16).collect();
        self.shuffle(&mut rank);
        let rank = |task: usize| rank[tasks[task].processor];
        // So many neighbours in the sequence may be joined both ways.
        let joined = self.pick(&[1, 1, 2, 3]);
        // Whether edges lead from a processor's first half to another's second: few of them are redundant then.
        let crossing = self.once_in(2);
        let delays = self.between(0, 3);

        let mut edges = Vec::new();
        for _ in 0..20 * count {
            let mut edge = self.edge(tasks.len());
            edge.delay = match delays {
                0 => 0,
                1 => self.between(0, 1),
                2 => self.between(0, 3),
                _ => edge.delay,
            };
            if rank(edge.source) > rank(edge.sink) {
                (edge.source, edge.sink) = (edge.sink, edge.source);
            }
            let both_ways = rank(edge.source) / joined == rank(edge.sink) / joined;
            if both_ways && self.once_in(2) {
                let delay = self.between(1, 3);
                (edge.source, edge.sink, edge.delay) = (edge.sink, edge.source, delay);
            }
            let within = tasks[edge.source].processor == tasks[edge.sink].processor;
            let crosses = in_first_half(tasks, edge.source) && in_second_half(tasks, edge.sink);
            let wanted = !within && (crosses || !crossing || both_ways);
            if edges.len() < count && wanted && !edges.contains(&edge) {
                edges.push(edge);
            }
        }
        edges
    }

    /// Sets the bound of an accepted graph: the largest, or any from its latency to that of the plan without a bound.
    pub fn set_bound(&mut self, graph: &mut Graph) {
        graph.bound = LARGEST_BOUND;
        if self.once_in(2) {
            let (least, most) = (schedule::latency(graph), plans::plan(graph).latency);
            graph.bound = self.between(least, most);
        }
    }

    /// Copies of a small graph side by side, so that candidates of one tie with those of the others. Input and output are those of
    /// any copy; the bound holds for that alone.
    pub fn graph_of_copies(&mut self) -> Graph {
        let processors = self.between(2, 4);
        let task_count = self.between(processors, 8);
        let edge_count = self.between(2, 10);
        let part = self.graph_to_plan_on(processors, task_count, edge_count);
        let copies = self.between(2, 16 / processors);
        let copy_after_copy = self.once_in(2);
        let number = |copy: usize, task: usize| {
            if copy_after_copy {
                copy * task_count + task
            } else {
                task * copies + copy
            }
        };

        let mut graph = part.clone();
        graph.tasks = vec![part.tasks[0]; copies * task_count];
        graph.edges.clear();
        for copy in 0..copies {
            for (task, of) in part.tasks.iter().enumerate() {
                graph.tasks[number(copy, task)] = Task {
                    processor: copy * processors + of.processor,
                    time: of.time,
                };
            }
            graph.edges.extend(part.edges.iter().map(|edge| Edge {
                source: number(copy, edge.source),
                sink: number(copy, edge.sink),
                delay: edge.delay,
            }));
        }
        self.shuffle(&mut graph.edges);
        let bounded = self.between(0, copies - 1);
        graph.input = number(bounded, part.input);
        graph.output = number(bounded, part.output);
        graph
    }

    /// A graph of so many chains, 2 to 15, whose plan takes a step for each chain and for every two of them: 120 at most. If it needs
    /// fewer edges than wanted, it gets redundant ones too.
    ///
    /// A chain is a processor of four tasks. Its first has an edge to the third of every later chain and its second to the fourth; both
    /// are subsumed by a candidate from the second to the third. Third and fourth have edges to the first and second task of a last
    /// processor, where the output is. Tasks of chains take so long that the bound allows no path through five of them.
    pub fn chains(&mut self, count: usize, edge_count: usize) -> Graph {
        let task = |chain: usize, place: usize| 4 * chain + place;
        let tasks = (0..4 * count + 4).map(|v| Task {
            processor: v / 4,
            time: if v < 4 * count { 100 } else { 1 },
        });
        let mut pairs = Vec::new();
        for chain in 0..count {
            for later in chain + 1..count {
                pairs.push((task(chain, 0), task(later, 2)));
                pairs.push((task(chain, 1), task(later, 3)));
            }
            pairs.push((task(chain, 2), task(count, 0)));
            pairs.push((task(chain, 3), task(count, 1)));
        }
        let needed = pairs.iter().map(|&(source, sink)| Edge {
            source,
            sink,
            delay: 0,
        });
        let mut edges: Vec<Edge> = needed.collect();
        while edges.len() < edge_count {
            let (source, sink) = pairs[self.between(0, pairs.len() - 1)];
            let delay = self.between(1, 255);
            let redundant = Edge {
                source,
                sink,
                delay,
            };
            if !edges.contains(&redundant) {
                edges.push(redundant);
            }
        }
        self.shuffle(&mut edges);
        Graph {
            tasks: tasks.collect(),
            edges,
            input: 0,
            output: task(count, 3),
            bound: 4 * 100 + 4,
        }
    }
}

/// How many tasks of its processor run before a task and after it.
fn before_and_after(tasks: &[Task], task: usize) -> (usize, usize) {
    let beside = |v: &usize| tasks[*v].processor == tasks[task].processor;
    let before = (0..task).filter(beside).count();
    let after = (task + 1..tasks.len()).filter(beside).count();
    (before, after)
}

/// One in the middle, or alone, is in both halves.
fn in_first_half(tasks: &[Task], task: usize) -> bool {
    let (before, after) = before_and_after(tasks, task);
    before <= after
}

fn in_second_half(tasks: &[Task], task: usize) -> bool {
    let (before, after) = before_and_after(tasks, task);
    before >= after
}
