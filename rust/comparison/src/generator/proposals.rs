//! Random graphs with feedback and feedforward edges, and proposals of many kinds beside them.

use super::desks::LARGEST_BOUND;
use super::Generator;
use checker::files::{Edge, Graph};
use checker::proposals::{feedback_edges, feedforward_edges, least_delays_from, result};
use checker::schedule::{self, all_edges, ends_of_paths};

impl Generator {
    /// An accepted graph of so many tasks, with at most so many edges and the largest bound. Its processors stand in stages: edges
    /// between stages lead to a later one, so they are feedforward; within a stage they go both ways.
    pub fn staged_graph(&mut self, task_count: usize, edge_count: usize) -> Graph {
        loop {
            let mut graph = self.accepted_graph(task_count, edge_count);
            let stages = self.between(1, 4);
            let stages: Vec<usize> = (0..16).map(|_| self.between(1, stages)).collect();
            let stage = |task: usize| stages[graph.tasks[task].processor];
            let mut edges: Vec<Edge> = Vec::new();
            for mut edge in graph.edges.clone() {
                if stage(edge.source) > stage(edge.sink) {
                    (edge.source, edge.sink) = (edge.sink, edge.source);
                }
                let parallel = Edge {
                    delay: self.between(0, 255),
                    ..edge
                };
                let more = if self.once_in(8) { 2 } else { 1 };
                for edge in [edge, parallel].into_iter().take(more) {
                    if edges.len() < edge_count && !edges.contains(&edge) {
                        edges.push(edge);
                    }
                }
            }
            graph.edges = edges;
            graph.bound = LARGEST_BOUND;
            if schedule::judge(&graph).is_ok() {
                return graph;
            }
        }
    }

    /// A graph of 2 to 6 tasks for short runs: no delay is above 3.
    pub fn graph_to_run(&mut self) -> Graph {
        let task_count = self.between(2, 6);
        let edge_count = self.between(0, 12);
        cut_delays(self.staged_graph(task_count, edge_count))
    }

    /// Edges that enforce all orders in the plan's way: again and again one that may be added takes the place of all those that it
    /// subsumes.
    fn plan_like(&mut self, graph: &Graph) -> Vec<Edge> {
        let mut left = feedforward_edges(graph);
        for _ in 0..self.between(1, 4) {
            if left.is_empty() {
                break;
            }
            let edges = all_edges(&result(graph, &left));
            let rows: Vec<Vec<Option<usize>>> = (0..graph.tasks.len())
                .map(|from| least_delays_from(graph.tasks.len(), &edges, from))
                .collect();
            // "a task counting 0 to itself here"
            let least = |from: usize, to: usize| {
                if from == to {
                    Some(0)
                } else {
                    rows[from][to]
                }
            };
            let subsumes = |by: &Edge, edge: &Edge| {
                let before = least(edge.source, by.source);
                let after = least(by.sink, edge.sink);
                matches!((before, after), (Some(b), Some(a)) if b + by.delay + a <= edge.delay)
            };

            let one = left[self.between(0, left.len() - 1)];
            let may_be: Vec<Edge> = (0..graph.tasks.len())
                .flat_map(|source| (0..graph.tasks.len()).map(move |sink| (source, sink)))
                .map(|(source, sink)| Edge {
                    source,
                    sink,
                    delay: 0,
                })
                .filter(|by| subsumes(by, &one) && least(by.sink, by.source).is_none())
                .collect();
            let mut added = may_be[self.between(0, may_be.len() - 1)];
            if self.once_in(3) {
                added.delay = self.between(0, one.delay);
            }
            left.retain(|edge| !subsumes(&added, edge));
            left.push(added);
        }
        left
    }

    /// Adds edges that close no cycle, up to so many in all if they are found soon.
    fn add_forward(
        &mut self,
        graph: &Graph,
        proposed: &mut Vec<Edge>,
        count: usize,
        any: impl Fn(&mut Generator) -> Edge,
    ) {
        let mut edges = all_edges(&result(graph, proposed));
        for _ in 0..4 * count {
            let edge = any(self);
            let closes = edge.source == edge.sink || joins(&edges, edge.sink, edge.source);
            if proposed.len() < count && !closes && !proposed.contains(&edge) {
                proposed.push(edge);
                edges.push(edge);
            }
        }
    }

    /// Any place of a list, from 0; none if it is empty.
    fn place_in<T>(&mut self, list: &[T]) -> Option<usize> {
        (!list.is_empty()).then(|| self.between(0, list.len() - 1))
    }

    /// Puts an edge at any place, for another if there are 256.
    fn put(&mut self, proposed: &mut Vec<Edge>, edge: Edge) {
        proposed.retain(|other| *other != edge);
        proposed.truncate(255);
        proposed.insert(self.between(0, proposed.len()), edge);
    }
}

/// The graph with no delay above 3.
pub fn cut_delays(mut graph: Graph) -> Graph {
    let mut edges = Vec::new();
    for edge in &graph.edges {
        let delay = edge.delay.min(3);
        let edge = Edge { delay, ..*edge };
        if !edges.contains(&edge) {
            edges.push(edge);
        }
    }
    graph.edges = edges;
    graph
}

/// The neighbour of a task on its processor, after it or before it; the task itself if there is none.
fn neighbour(graph: &Graph, task: usize, after: bool) -> usize {
    let beside = |other: &usize| graph.tasks[*other].processor == graph.tasks[task].processor;
    let found = if after {
        (task + 1..graph.tasks.len()).find(beside)
    } else {
        (0..task).rev().find(beside)
    };
    found.unwrap_or(task)
}

fn turned(edge: Edge) -> Edge {
    Edge {
        source: edge.sink,
        sink: edge.source,
        ..edge
    }
}

/// Whether a path of one or more of these edges leads from one task to another.
fn joins(edges: &[Edge], from: usize, to: usize) -> bool {
    ends_of_paths(edges, from).contains(&to)
}

/// Whether these edges enforce the order of an edge.
fn enforce(task_count: usize, edges: &[Edge], edge: &Edge) -> bool {
    let least = least_delays_from(task_count, edges, edge.source)[edge.sink];
    least.map_or(false, |least| least <= edge.delay)
}

/// The feedforward edges that are not redundant.
fn needed_edges(graph: &Graph) -> Vec<Edge> {
    let edges = all_edges(graph);
    let mut needed = feedforward_edges(graph);
    needed.retain(|edge| {
        let others: Vec<Edge> = edges.iter().filter(|e| *e != edge).copied().collect();
        !enforce(graph.tasks.len(), &others, edge)
    });
    needed
}

/// Edges of equal ends and larger delays, one at least, in place of a needed edge; none if there is no such edge.
fn parallel_to_needed(g: &mut Generator, graph: &Graph) -> Option<Vec<Edge>> {
    let mut proposed = needed_edges(graph);
    let place = g.place_in(&proposed)?;
    let needed = proposed.remove(place);
    if needed.delay == 255 {
        return None;
    }
    for _ in 0..g.between(1, 3) {
        let delay = g.between(needed.delay + 1, 255.min(needed.delay + 4));
        g.put(&mut proposed, Edge { delay, ..needed });
    }
    Some(proposed)
}

/// A kind of proposals.
pub struct Kind {
    pub name: &'static str,
    /// What refusals they may get at the largest bound, 0 for none.
    pub numbers: &'static [usize],
    /// None if there is nothing of this kind beside the graph.
    pub make: fn(&mut Generator, &Graph) -> Option<Vec<Edge>>,
}

macro_rules! kind {
    ($name:literal, $numbers:expr, $make:expr $(,)?) => {
        Kind {
            name: $name,
            numbers: $numbers,
            make: $make,
        }
    };
}

/// Proposals of every kind.
pub const KINDS: [Kind; 25] = [
    // Accepted ones.
    kind!("the graph's own feedforward edges", &[0], |g, graph| {
        let mut proposed = feedforward_edges(graph);
        g.shuffle(&mut proposed);
        Some(proposed)
    }),
    kind!("its own but for the redundant ones", &[0], |_, graph| {
        Some(needed_edges(graph))
    }),
    kind!("the plan's kind", &[0], |g, graph| Some(g.plan_like(graph))),
    kind!("its own and more edges forward", &[0], |g, graph| {
        let mut proposed = feedforward_edges(graph);
        let count = 256.min(proposed.len() + g.between(1, 12));
        g.add_forward(graph, &mut proposed, count, |g| g.edge(graph.tasks.len()));
        Some(proposed)
    }),
    kind!("its own and more before the output", &[0], |g, graph| {
        let mut proposed = feedforward_edges(graph);
        let count = 256.min(proposed.len() + g.between(1, 4));
        let undelayed = schedule::undelayed_edges(graph);
        let before: Vec<usize> = (0..graph.tasks.len())
            .filter(|&task| task == graph.output || joins(&undelayed, task, graph.output))
            .collect();
        g.add_forward(graph, &mut proposed, count, |g| Edge {
            source: g.between(0, graph.tasks.len() - 1),
            sink: g.pick(&before),
            delay: 0,
        });
        Some(proposed)
    }),
    kind!(
        "its own, later sources and earlier sinks",
        &[0],
        |g, graph| {
            let mut proposed: Vec<Edge> = Vec::new();
            for mut edge in feedforward_edges(graph) {
                if g.once_in(2) {
                    edge.source = neighbour(graph, edge.source, true);
                }
                if g.once_in(2) {
                    edge.sink = neighbour(graph, edge.sink, false);
                }
                if !proposed.contains(&edge) {
                    proposed.push(edge);
                }
            }
            Some(proposed)
        },
    ),
    kind!(
        "parallel edges, the least delay as before",
        &[0],
        |g, graph| {
            let mut proposed = needed_edges(graph);
            let place = g.place_in(&proposed)?;
            let needed = proposed[place];
            for _ in 0..g.between(1, 3) {
                let delay = g.between(needed.delay, 255);
                if delay > needed.delay && proposed.len() < 256 {
                    g.put(&mut proposed, Edge { delay, ..needed });
                }
            }
            Some(proposed)
        },
    ),
    // Those that lose an order.
    kind!("none", &[0, 14], |_, _| Some(Vec::new())),
    kind!("one left out that is needed", &[14], |g, graph| {
        let mut proposed = needed_edges(graph);
        let place = g.place_in(&proposed)?;
        proposed.remove(place);
        Some(proposed)
    }),
    kind!("one delay larger by 1 than needed", &[14], |g, graph| {
        let mut proposed = needed_edges(graph);
        let place = g.place_in(&proposed)?;
        proposed[place].delay += 1;
        (proposed[place].delay < 256).then_some(proposed)
    }),
    kind!("parallel edges of larger delays", &[14], parallel_to_needed),
    kind!("all parallel edges left out", &[14], |g, graph| {
        let mut proposed = feedforward_edges(graph);
        let place = g.place_in(&proposed)?;
        let out = proposed[place];
        let parallel = |edge: &Edge| (edge.source, edge.sink) == (out.source, out.sink);
        proposed.retain(|edge| !parallel(edge));
        let others = all_edges(&result(graph, &proposed));
        (!enforce(graph.tasks.len(), &others, &out)).then_some(proposed)
    }),
    kind!("an earlier source or a later sink", &[0, 14], |g, graph| {
        let mut proposed = needed_edges(graph);
        let place = g.place_in(&proposed)?;
        let mut moved = proposed.remove(place);
        if g.once_in(2) {
            moved.source = neighbour(graph, moved.source, false);
        } else {
            moved.sink = neighbour(graph, moved.sink, true);
        }
        g.put(&mut proposed, moved);
        Some(proposed)
    }),
    kind!("the plan's kind, one left out", &[0, 14], |g, graph| {
        let mut proposed = g.plan_like(graph);
        let place = g.place_in(&proposed)?;
        proposed.remove(place);
        Some(proposed)
    }),
    kind!(
        "the plan's kind, one delay larger by 1",
        &[0, 14],
        |g, graph| {
            let mut proposed = g.plan_like(graph);
            let place = g.place_in(&proposed)?;
            let mut larger = proposed.remove(place);
            larger.delay = (larger.delay + 1).min(255);
            g.put(&mut proposed, larger);
            Some(proposed)
        },
    ),
    kind!("any edges forward", &[0, 14], |g, graph| {
        let mut proposed = Vec::new();
        let count = g.between(1, 12);
        g.add_forward(graph, &mut proposed, count, |g| g.edge(graph.tasks.len()));
        Some(proposed)
    }),
    // On a cycle with the edges that are dropped, but on none of the result.
    kind!("all turned round", &[14], |_, graph| {
        let own = feedforward_edges(graph);
        let proposed = own.iter().map(|edge| turned(*edge)).collect();
        (!own.is_empty()).then_some(proposed)
    }),
    kind!("one turned round, no other", &[14], |g, graph| {
        let own = feedforward_edges(graph);
        let place = g.place_in(&own)?;
        Some(vec![turned(own[place])])
    }),
    // Those on a cycle.
    kind!("one within a processor", &[13], |g, graph| {
        let mut proposed = feedforward_edges(graph);
        let source = g.between(0, graph.tasks.len() - 1);
        let processor = graph.tasks[source].processor;
        let beside: Vec<usize> = (0..graph.tasks.len())
            .filter(|&task| graph.tasks[task].processor == processor)
            .collect();
        let sink = g.pick(&beside);
        let delay = g.delay();
        let edge = Edge {
            source,
            sink,
            delay,
        };
        g.put(&mut proposed, edge);
        Some(proposed)
    }),
    kind!("a feedback edge once more", &[13], |g, graph| {
        let kept = feedback_edges(graph);
        let place = g.place_in(&kept)?;
        let mut proposed = feedforward_edges(graph);
        g.put(&mut proposed, kept[place]);
        Some(proposed)
    }),
    kind!("parallel to a feedback edge", &[13], |g, graph| {
        let kept = feedback_edges(graph);
        let place = g.place_in(&kept)?;
        let mut proposed = feedforward_edges(graph);
        let delay = g.delay();
        g.put(
            &mut proposed,
            Edge {
                delay,
                ..kept[place]
            },
        );
        Some(proposed)
    }),
    kind!("one back along a path of the result", &[13], |g, graph| {
        let mut proposed = g.plan_like(graph);
        let from = g.between(0, graph.tasks.len() - 1);
        let ends = ends_of_paths(&all_edges(&result(graph, &proposed)), from);
        let back = Edge {
            source: g.pick(&ends.into_iter().collect::<Vec<usize>>()),
            sink: from,
            delay: g.delay(),
        };
        // Of 256 one would be left out, and so the path perhaps.
        if proposed.len() == 256 {
            return None;
        }
        g.put(&mut proposed, back);
        Some(proposed)
    }),
    // None of these edges is on a cycle with the graph alone.
    kind!("two that close a cycle together", &[13], |g, graph| {
        let edges = all_edges(graph);
        let a = g.between(0, graph.tasks.len() - 1);
        let after = ends_of_paths(&edges, a);
        let apart: Vec<usize> = (0..graph.tasks.len())
            .filter(|b| !after.contains(b) && !joins(&edges, *b, a))
            .collect();
        let b = apart[g.place_in(&apart)?];
        let mut proposed = feedforward_edges(graph);
        if proposed.len() > 254 {
            return None;
        }
        for (source, sink) in [(a, b), (b, a)] {
            let delay = g.delay();
            let edge = Edge {
                source,
                sink,
                delay,
            };
            g.put(&mut proposed, edge);
        }
        Some(proposed)
    }),
    // Whatever comes.
    kind!("any edges", &[0, 13, 14], |g, graph| {
        Some(g.any_proposal(graph.tasks.len()))
    }),
    kind!("its own and any edge", &[0, 13, 14], |g, graph| {
        let mut proposed = feedforward_edges(graph);
        for _ in 0..g.between(1, 3) {
            let edge = g.edge(graph.tasks.len());
            g.put(&mut proposed, edge);
        }
        Some(proposed)
    }),
];
