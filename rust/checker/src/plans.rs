//! An independent planner, to compare the proved plan with.
//!
//! It follows the memorandum's Figure 10 (document 000, section 9) as document 01 reads it, as plainly as possible: at every step
//! all pairs of tasks are tried in the present graph, its least delays are looked for anew, and latency is that of the graph with
//! the pair added. The figure's tables, brought up to date from step to step, are not used. It shares no code with the other side.

use crate::files::{refuse, Edge, Graph, Refusal};
use crate::proposals::{feedforward_edges, least_delays_from, result};
use crate::schedule::{accept_graph, all_edges, latency, redundant_places};

/// "the answer gives its length, its steps and its latency"
#[derive(Clone, Debug, PartialEq, Eq)]
pub struct Plan {
    /// "The plan lists the feedforward edges left, file sequence first, then added ones."
    pub edges: Vec<Edge>,
    pub steps: Vec<Step>,
    /// That of the graph with these feedforward edges in place of its own.
    pub latency: usize,
}

/// A step of the plan.
#[derive(Clone, Debug, PartialEq, Eq)]
pub struct Step {
    pub added: Edge,
    /// The edges that it subsumes, which are dropped.
    pub dropped: Vec<Edge>,
    /// How many other candidates subsume as many.
    pub ties: usize,
}

/// The plan for a graph file and a lent list of so many records.
pub fn plan_into(file: &[u8], room: usize) -> Result<Plan, Refusal> {
    let graph = accept_graph(file)?;
    room_for_plan(&graph, room)?;
    Ok(plan(&graph))
}

/// Refusal 16, which comes after 12: "a lent list too short (tasks squared, tasks × turns, or edges)". Edges are those of the file,
/// whatever would be written.
pub fn room_for_plan(graph: &Graph, room: usize) -> Result<(), Refusal> {
    if room < graph.edges.len() {
        return refuse(16, 0);
    }
    Ok(())
}

/// The plan for an accepted graph.
pub fn plan(graph: &Graph) -> Plan {
    let mut left = needed_edges(graph);
    let mut steps = Vec::new();
    loop {
        let present = result(graph, &left);
        let best = best_candidates(&present);
        // "ties to the smaller a and then the smaller b": the first
        let taken = match best.first() {
            Some(first) => first,
            None => {
                return Plan {
                    edges: left,
                    steps,
                    latency: latency(&present),
                }
            }
        };
        // "adds it last and drops what it subsumes"
        left.retain(|edge| !taken.subsumed.contains(edge));
        left.push(taken.edge);
        steps.push(Step {
            added: taken.edge,
            dropped: taken.subsumed.clone(),
            ties: best.len() - 1,
        });
    }
}

/// "Drop the redundant feedforward edges first": all at once, as each is redundant in the graph of the file.
pub fn needed_edges(graph: &Graph) -> Vec<Edge> {
    let redundant = redundant_places(graph);
    let redundant: Vec<Edge> = redundant.iter().map(|at| graph.edges[at - 1]).collect();
    let mut needed = feedforward_edges(graph);
    needed.retain(|edge| !redundant.contains(edge));
    needed
}

/// A pair of tasks, as an edge of delay 0, and the synchronization edges of the present graph that it subsumes.
#[derive(Clone)]
struct Pair {
    edge: Edge,
    subsumed: Vec<Edge>,
}

/// The candidates that subsume most edges, and two or more, by ascending source and then sink.
fn best_candidates(present: &Graph) -> Vec<Pair> {
    let pairs = pairs_without_path_back(present);
    let most = pairs.iter().map(|pair| pair.subsumed.len()).max();
    for number in (2..=most.unwrap_or(0)).rev() {
        let candidates: Vec<Pair> = pairs
            .iter()
            .filter(|pair| pair.subsumed.len() == number)
            .filter(|pair| keeps_the_bound(present, pair.edge))
            .cloned()
            .collect();
        if !candidates.is_empty() {
            return candidates;
        }
    }
    Vec::new()
}

/// "a pair (a, b), delay 0, with no path from b to a": all of them, a ascending, then b.
///
/// "It subsumes an edge (s, t) if least delay s to a plus least delay b to t is at most that edge's delay, a task counting 0 to
/// itself here."
fn pairs_without_path_back(present: &Graph) -> Vec<Pair> {
    let tasks = 0..present.tasks.len();
    let edges = all_edges(present);
    let mut least: Vec<Vec<Option<usize>>> = tasks
        .clone()
        .map(|from| least_delays_from(present.tasks.len(), &edges, from))
        .collect();
    let mut pairs = Vec::new();
    for source in tasks.clone() {
        // No pair of a task and itself: a path round its processor leads back.
        for sink in tasks.clone().filter(|&b| least[b][source].is_none()) {
            pairs.push(Pair {
                edge: Edge {
                    source,
                    sink,
                    delay: 0,
                },
                subsumed: Vec::new(),
            });
        }
    }

    for task in tasks {
        least[task][task] = Some(0);
    }
    for pair in &mut pairs {
        let subsumes = |edge: &&Edge| {
            let before = least[edge.source][pair.edge.source];
            let after = least[pair.edge.sink][edge.sink];
            matches!((before, after), (Some(b), Some(a)) if b + a <= edge.delay)
        };
        pair.subsumed = present.edges.iter().filter(subsumes).copied().collect();
    }
    pairs
}

/// "whose addition leaves latency within the bound". No path leads back, so it closes no cycle.
fn keeps_the_bound(present: &Graph, added: Edge) -> bool {
    let mut with = present.clone();
    with.edges.push(added);
    latency(&with) <= present.bound
}

#[cfg(test)]
mod tests {
    use super::*;
    use crate::example::{desk, edge};
    use crate::files::{write_graph, GraphFields, Task};

    /// Tasks of these processors, each of time 1, with the largest bound.
    fn graph(processors: &[usize], edges: &[Edge], input: usize, output: usize) -> Graph {
        let tasks = processors
            .iter()
            .map(|&processor| Task { processor, time: 1 });
        let graph = Graph {
            tasks: tasks.collect(),
            edges: edges.to_vec(),
            input,
            output,
            bound: (1 << 23) - 1,
        };
        assert_eq!(crate::schedule::judge(&graph), Ok(()));
        graph
    }

    fn at(graph: &Graph, bound: usize) -> Graph {
        let mut graph = graph.clone();
        graph.bound = bound;
        graph
    }

    /// The plan's edges, number of steps and latency.
    fn figures(graph: &Graph) -> (Vec<Edge>, usize, usize) {
        let plan = plan(graph);
        (plan.edges, plan.steps.len(), plan.latency)
    }

    #[test]
    fn plan_of_the_example_desk() {
        for bound in [10, 11, 12] {
            let plan = plan(&at(&desk(), bound));
            assert_eq!((plan.edges, plan.latency), (vec![edge(1, 2, 0)], 10));
            let step = Step {
                added: edge(1, 2, 0),
                dropped: vec![edge(0, 2, 0), edge(1, 3, 0)],
                ties: 0,
            };
            assert_eq!(plan.steps, [step]);
        }
        let kept = vec![edge(0, 2, 0), edge(1, 3, 0)];
        assert_eq!(figures(&at(&desk(), 9)), (kept, 0, 9));
    }

    #[test]
    fn a_short_list_comes_after_the_graph() {
        let file = |graph: &Graph| write_graph(&GraphFields::of(graph));
        let good = file(&desk());
        for room in 0..3 {
            assert_eq!(plan_into(&good, room), refuse(16, 0));
        }
        for room in 3..6 {
            assert_eq!(plan_into(&good, room), Ok(plan(&desk())));
        }
        assert_eq!(plan_into(&file(&at(&desk(), 8)), 0), refuse(12, 0));
        assert_eq!(plan_into(&good[..24], 0), refuse(1, 0));
    }

    #[test]
    fn ties_go_to_the_smaller_source_then_sink() {
        // Candidates lead from 1 or 2 to 3 or 4.
        let edges = [edge(0, 4, 0), edge(1, 5, 0)];
        let tied = graph(&[0, 0, 0, 1, 1, 1], &edges, 0, 5);
        assert_eq!(plan(&tied).edges, [edge(1, 3, 0)]);
        assert_eq!(plan(&tied).steps[0].ties, 3);
        // Those that are late do not tie: 0, 1, 3, 4, 5 takes 5, and 0, 1, 4, 5 takes 4.
        assert_eq!(figures(&at(&tied, 5)), (vec![edge(1, 3, 0)], 1, 5));
        assert_eq!(figures(&at(&tied, 4)), (vec![edge(1, 4, 0)], 1, 4));
        assert_eq!(plan(&at(&tied, 4)).steps[0].ties, 0);
        assert_eq!(figures(&at(&tied, 3)), (edges.to_vec(), 0, 3));
        // None is late for the last task of the input's own processor.
        let mut sooner = at(&tied, 3);
        sooner.output = 2;
        assert_eq!(figures(&sooner), (vec![edge(1, 3, 0)], 1, 3));
    }

    #[test]
    fn one_edge_alone_is_left_as_it_is() {
        let two = [0, 0, 1, 1];
        let lone = graph(&two, &[edge(0, 3, 0)], 0, 3);
        assert_eq!(figures(&lone), (vec![edge(0, 3, 0)], 0, 2));
        let none = graph(&two, &[], 0, 1);
        assert_eq!(figures(&none), (vec![], 0, 2));
    }

    #[test]
    fn redundant_edges_go_first_and_count_for_nothing() {
        // A candidate from 1 to 2 would subsume four edges, but three of them are redundant.
        let edges = [edge(0, 3, 7), edge(0, 2, 4), edge(1, 3, 5), edge(0, 2, 0)];
        let redundant = graph(&[0, 0, 1, 1], &edges, 0, 3);
        assert_eq!(figures(&redundant), (vec![edge(0, 2, 0)], 0, 3));
    }

    #[test]
    fn delays_count_round_a_processor() {
        // From 1 to 0, or from 3 to 2, it takes a delay of 1, which the second edge allows.
        let edges = [edge(0, 3, 0), edge(1, 2, 1)];
        let crossed = graph(&[0, 0, 1, 1], &edges, 0, 3);
        let taken = plan(&crossed);
        assert_eq!((taken.edges, taken.latency), (vec![edge(0, 2, 0)], 3));
        assert_eq!(taken.steps[0].ties, 2, "1 to 2 and 1 to 3");
    }

    #[test]
    fn feedback_edges_are_kept_and_lead_on() {
        // Tasks 2 and 3 wait for one another; from 2 it goes on to 3.
        let ring = [edge(2, 3, 0), edge(3, 2, 1)];
        let edges = [ring[0], edge(0, 2, 0), ring[1], edge(1, 3, 0)];
        let graph = graph(&[0, 0, 1, 2], &edges, 0, 3);
        let taken = plan(&graph);
        assert_eq!((taken.edges, taken.latency), (vec![edge(1, 2, 0)], 4));
        assert_eq!(taken.steps[0].dropped, [edges[1], edges[3]]);
        assert_eq!(figures(&at(&graph, 3)), (vec![edges[1], edges[3]], 0, 3));
    }
}
