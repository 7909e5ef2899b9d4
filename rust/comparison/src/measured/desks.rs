//! The desks that are measured: document 01's example, and seeded ones of any size.

use crate::generator::desk::{DESK, PROPOSAL};
use crate::generator::desks::LARGEST_BOUND;
use crate::generator::Generator;
use checker::files::{write_graph, write_proposal, Edge, Graph, GraphFields, ProposalFields, Task};
use checker::{plans, proposals, schedule};

pub struct Desk {
    pub name: &'static str,
    pub file: Vec<u8>,
}

/// What edges of a desk are.
struct Manner {
    /// Whether tasks of a processor are neighbours, else they stand in turn.
    blocks: bool,
    /// So many groups of processors; between groups edges lead forward only, within one they go both ways.
    groups: usize,
    /// Of ten edges within a group, so many go against the sequence of the first turn.
    back: usize,
    /// Of ten edges along the sequence, so many have delay 0.
    undelayed: usize,
    /// The largest delay of the others.
    longest: usize,
}

const DENSE: Manner = Manner {
    blocks: true,
    groups: 1,
    back: 0,
    undelayed: 10,
    longest: 0,
};

const FEEDBACK: Manner = Manner {
    blocks: false,
    groups: 1,
    back: 5,
    undelayed: 5,
    longest: 3,
};

const FORWARD: Manner = Manner {
    blocks: false,
    groups: 16,
    back: 0,
    undelayed: 6,
    longest: 4,
};

const MIXED: Manner = Manner {
    blocks: false,
    groups: 5,
    back: 3,
    undelayed: 3,
    longest: 255,
};

/// The example desk, and desks of 64 tasks and 256 edges.
pub fn largest_and_example() -> Vec<Desk> {
    let mut generator = Generator::new(96);
    vec![
        Desk {
            name: "example",
            file: DESK.to_vec(),
        },
        desk("dense, delay 0", &random(1, &DENSE, 64, 256)),
        desk("feedback-heavy", &random(2, &FEEDBACK, 64, 256)),
        desk("long chain", &long_chain()),
        desk("fan", &fan()),
        desk("mixed delays", &random(3, &MIXED, 64, 256)),
        desk("feedforward", &random(4, &FORWARD, 64, 256)),
        desk("many steps", &generator.chains(15, 256)),
    ]
}

/// Mixed delays, with 4 edges for each task.
pub fn by_tasks() -> Vec<(usize, Desk)> {
    let of = |tasks| (tasks, desk("mixed", &random(5, &MIXED, tasks, 4 * tasks)));
    [4, 8, 16, 32, 64].map(of).into()
}

/// Mixed delays, 64 tasks.
pub fn by_edges() -> Vec<(usize, Desk)> {
    let of = |edges| (edges, desk("mixed", &random(6, &MIXED, 64, edges)));
    [0, 64, 128, 256].map(of).into()
}

fn desk(name: &'static str, graph: &Graph) -> Desk {
    assert_eq!(schedule::judge(graph), Ok(()), "{name}");
    let file = write_graph(&GraphFields::of(graph));
    Desk { name, file }
}

/// An accepted graph of just this size.
fn random(seed: u64, manner: &Manner, tasks: usize, edges: usize) -> Graph {
    let mut g = Generator::new(seed);
    loop {
        let mut graph = of_manner(&mut g, manner, tasks, edges);
        if set_latency_ends(&mut graph) {
            return graph;
        }
    }
}

fn of_manner(g: &mut Generator, manner: &Manner, count: usize, edge_count: usize) -> Graph {
    let processors = 16.min(count / 2);
    let processor = |task: usize| {
        if manner.blocks {
            task * processors / count
        } else {
            task % processors
        }
    };
    let tasks: Vec<Task> = (0..count)
        .map(|task| Task {
            processor: processor(task),
            time: g.between(1, 1000),
        })
        .collect();
    // A sequence of the first turn: any that keeps each processor's.
    let mut rank: Vec<usize> = (0..count).collect();
    for own in 0..processors {
        let of_own: Vec<usize> = (0..count).filter(|&v| processor(v) == own).collect();
        let mut places: Vec<usize> = of_own.iter().map(|_| g.between(0, 4 * count)).collect();
        places.sort_unstable();
        of_own
            .iter()
            .zip(places)
            .for_each(|(&v, place)| rank[v] = place);
    }
    let group = |task: usize| processor(task) * manner.groups.min(processors) / processors;

    let mut edges: Vec<Edge> = Vec::new();
    while edges.len() < edge_count {
        let (mut source, mut sink) = (g.between(0, count - 1), g.between(0, count - 1));
        if processor(source) == processor(sink) {
            continue;
        }
        let across = group(source) != group(sink);
        let back = !across && g.between(1, 10) <= manner.back;
        let turned = if across {
            group(source) > group(sink)
        } else {
            ((rank[source], source) > (rank[sink], sink)) != back
        };
        if turned {
            (source, sink) = (sink, source);
        }
        let in_sequence = (rank[source], source) < (rank[sink], sink);
        let delay = if in_sequence && g.between(1, 10) <= manner.undelayed {
            0
        } else {
            g.between(1, manner.longest.max(1))
        };
        let edge = Edge {
            source,
            sink,
            delay,
        };
        if !edges.contains(&edge) {
            edges.push(edge);
        }
    }
    Graph {
        tasks,
        edges,
        input: 0,
        output: 0,
        bound: LARGEST_BOUND,
    }
}

/// Sets input and output so that the latency is long, and the bound to twice the latency. False if there is no such input.
fn set_latency_ends(graph: &mut Graph) -> bool {
    let undelayed = schedule::undelayed_edges(graph);
    let mut longest = 0;
    for input in 0..graph.tasks.len() {
        if undelayed.iter().any(|edge| edge.sink == input) {
            continue;
        }
        for output in schedule::ends_of_paths(&undelayed, input) {
            let latency = schedule::latency(&Graph {
                output,
                ..graph.clone()
            });
            if latency > longest {
                longest = latency;
                (graph.input, graph.output) = (input, output);
            }
        }
    }
    graph.bound = 2 * longest;
    longest > 0
}

/// A path of delay 0 through all 64 tasks, from processor to processor; its edges and others along it stand in the file last first.
fn long_chain() -> Graph {
    // Four tasks to a processor; the path goes from the last processor to the first, then to the next task of each.
    let along = |place: usize| 4 * (15 - place % 16) + place / 16;
    let link = |from: usize, to: usize| Edge {
        source: along(from),
        sink: along(to),
        delay: 0,
    };
    let links = (0..63).map(|at| link(at, at + 1));
    let skipping = [2, 3, 5, 7].into_iter();
    let others = skipping.flat_map(|by| (0..64 - by).map(move |at| link(at, at + by)));
    let mut edges: Vec<Edge> = links.chain(others).take(256).collect();
    edges.reverse();
    let tasks = (0..64).map(|task| Task {
        processor: task / 4,
        time: 100 + task,
    });
    Graph {
        tasks: tasks.collect(),
        edges,
        input: along(0),
        output: along(63),
        bound: LARGEST_BOUND,
    }
}

/// All 256 edges lead out of the first task, several to each other task off its processor.
fn fan() -> Graph {
    let tasks = (0..64).map(|task| Task {
        processor: task / 4,
        time: 100 + task,
    });
    let edges = (0..256).map(|at| Edge {
        source: 0,
        sink: 4 + at % 60,
        delay: at / 60,
    });
    let mut graph = Graph {
        tasks: tasks.collect(),
        edges: edges.collect(),
        input: 0,
        output: 63,
        bound: LARGEST_BOUND,
    };
    Generator::new(7).shuffle(&mut graph.edges);
    graph
}

/// Proposals for a graph file: the plan's, the graph's own feedforward edges, and these without one that is needed (refusal 14), if
/// there is one.
pub fn proposals(file: &[u8]) -> Vec<(&'static str, Vec<u8>)> {
    if file == DESK {
        let none = write_proposal(&ProposalFields::of(&[]));
        return vec![("accepted", PROPOSAL.to_vec()), ("refused", none)];
    }
    let graph = schedule::accept_graph(file).expect("an accepted graph");
    let write = |edges: &[Edge]| write_proposal(&ProposalFields::of(edges));
    let own = proposals::feedforward_edges(&graph);
    let mut list = vec![("its own edges", write(&own))];
    if let Some(needed) = plans::needed_edges(&graph).last() {
        let mut lost = own.clone();
        lost.retain(|edge| edge != needed);
        list.push(("one order lost", write(&lost)));
        list.push(("its plan", write(&planned(file))));
    }
    list
}

/// The proved plan's edges.
fn planned(file: &[u8]) -> Vec<Edge> {
    let mut list = [resync::raw::Edge::default(); 256];
    let length = resync::raw::plan(file, &mut list).length as usize;
    let edges = list[..length].iter().map(|edge| Edge {
        source: edge.source.into(),
        sink: edge.sink.into(),
        delay: edge.delay.into(),
    });
    edges.collect()
}
