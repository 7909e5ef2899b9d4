//! An independent judge of proposals, to compare the proved verdict with.
//!
//! It is written from the memorandum's "resynchronization" (document 000, section 3.3) as document 01 reads it, with request (iv)
//! of document 02, as plainly as possible: cycles by going along every path, least delays by going on from the nearest task,
//! latency as in [`schedule`]. It shares no code with the other side.

use crate::files::{read_proposal, Edge, Graph, Refusal};
use crate::schedule;
use std::collections::BTreeSet;

/// The verdict on a proposal beside a graph.
#[derive(Clone, Debug, PartialEq, Eq)]
pub enum Verdict {
    /// "latency of the result, and margin, which is bound minus latency"
    Accepted { latency: usize, margin: isize },
    /// Refusals 1 to 14.
    Refused(Refusal),
    /// Refusal 15: "latency and the negative margin are given".
    Late { latency: usize, margin: isize },
}

impl Verdict {
    /// Document 01's number, 0 if accepted.
    pub fn number(&self) -> usize {
        match self {
            Verdict::Accepted { .. } => 0,
            Verdict::Refused(refusal) => refusal.number,
            Verdict::Late { .. } => 15,
        }
    }
}

/// The verdict on two files.
pub fn verdict(graph: &[u8], proposal: &[u8]) -> Verdict {
    verdict_beside(&schedule::accept_graph(graph), proposal)
}

/// The verdict on a proposal file beside a graph file that has been judged: "Every call that takes a graph runs its checks up to
/// 12", then come those of the proposal.
pub fn verdict_beside(graph: &Result<Graph, Refusal>, proposal: &[u8]) -> Verdict {
    let graph = match graph {
        Err(refusal) => return Verdict::Refused(*refusal),
        Ok(graph) => graph,
    };
    match read_proposal(proposal, graph.tasks.len()) {
        Err(refusal) => Verdict::Refused(refusal),
        Ok(proposed) => judge(graph, &proposed),
    }
}

/// Refusals 13 to 15 of a well-formed proposal beside an accepted graph, in this sequence.
pub fn judge(graph: &Graph, proposed: &[Edge]) -> Verdict {
    let result = result(graph, proposed);
    // "refusal 13 shall give the earliest proposed edge that lies on a cycle of the result" (document 02, request iv)
    if let Some(&place) = places_on_cycles(&result, proposed).first() {
        return Verdict::Refused(Refusal { number: 13, place });
    }
    if let Some(place) = first_lost(graph, &result) {
        return Verdict::Refused(Refusal { number: 14, place });
    }
    let latency = schedule::latency(&result);
    let margin = graph.bound as isize - latency as isize;
    if margin < 0 {
        Verdict::Late { latency, margin }
    } else {
        Verdict::Accepted { latency, margin }
    }
}

/// "Its result keeps all processor and feedback edges, drops all feedforward edges and adds the proposed ones." It "has its
/// graph's tasks, estimated times, latency input, latency output and bound".
pub fn result(graph: &Graph, proposed: &[Edge]) -> Graph {
    let mut result = graph.clone();
    result.edges = [&feedback_edges(graph), proposed].concat();
    result
}

/// The synchronization edges that lie on a cycle.
pub fn feedback_edges(graph: &Graph) -> Vec<Edge> {
    let on_cycle = places_on_cycles(graph, &graph.edges);
    on_cycle
        .iter()
        .map(|place| graph.edges[place - 1])
        .collect()
}

/// The synchronization edges that lie on no cycle.
pub fn feedforward_edges(graph: &Graph) -> Vec<Edge> {
    let on_cycle = places_on_cycles(graph, &graph.edges);
    (1..=graph.edges.len())
        .filter(|place| !on_cycle.contains(place))
        .map(|place| graph.edges[place - 1])
        .collect()
}

/// The places, from 1 and ascending, of those among some of the graph's edges that lie on a cycle: a path leads from the sink
/// back to the source, or they are the same.
pub fn places_on_cycles(graph: &Graph, some: &[Edge]) -> Vec<usize> {
    let edges = schedule::all_edges(graph);
    let mut after: Vec<Option<BTreeSet<usize>>> = vec![None; graph.tasks.len()];
    let mut places = Vec::new();
    for (index, edge) in some.iter().enumerate() {
        let ends =
            after[edge.sink].get_or_insert_with(|| schedule::ends_of_paths(&edges, edge.sink));
        if edge.source == edge.sink || ends.contains(&edge.source) {
            places.push(index + 1);
        }
    }
    places
}

/// The place, from 1, of the first edge of the graph whose ends do not "have in the result a least delay at most that edge's
/// own".
fn first_lost(graph: &Graph, result: &Graph) -> Option<usize> {
    let edges = schedule::all_edges(result);
    let mut least: Vec<Option<Vec<Option<usize>>>> = vec![None; graph.tasks.len()];
    for (index, edge) in graph.edges.iter().enumerate() {
        let row = least[edge.source]
            .get_or_insert_with(|| least_delays_from(graph.tasks.len(), &edges, edge.source));
        let kept = row[edge.sink].map_or(false, |delay| delay <= edge.delay);
        if !kept {
            return Some(index + 1);
        }
    }
    None
}

/// The least delay from one task to each, none if there is no path.
///
/// Of the tasks met and not yet gone on from, the one with the least sum is taken: no delay is negative, so no path that is met
/// later can be less.
pub fn least_delays_from(task_count: usize, edges: &[Edge], from: usize) -> Vec<Option<usize>> {
    let mut out_of = vec![Vec::new(); task_count];
    for edge in edges {
        out_of[edge.source].push(*edge);
    }
    let mut least: Vec<Option<usize>> = vec![None; task_count];
    let mut gone_on = vec![false; task_count];
    let mut next = Some((0, from));
    while let Some((sum, task)) = next {
        for edge in &out_of[task] {
            let longer = sum + edge.delay;
            let known = least[edge.sink].unwrap_or(longer);
            least[edge.sink] = Some(known.min(longer));
        }
        // The first task itself counts as met when a cycle leads back to it; to go on from it again changes nothing.
        next = (0..task_count)
            .filter(|&met| !gone_on[met])
            .filter_map(|met| least[met].map(|sum| (sum, met)))
            .min();
        if let Some((_, met)) = next {
            gone_on[met] = true;
        }
    }
    least
}

#[cfg(test)]
mod tests {
    use super::*;
    use crate::example::{desk, edge};
    use crate::files::{write_graph, write_proposal, GraphFields, ProposalFields, Task};

    fn accepted(latency: usize, margin: isize) -> Verdict {
        Verdict::Accepted { latency, margin }
    }

    fn refused(number: usize, place: usize) -> Verdict {
        Verdict::Refused(Refusal { number, place })
    }

    #[test]
    fn verdicts_of_the_example_desk() {
        let of = |bound: usize, proposed: &[Edge]| {
            let mut desk = desk();
            desk.bound = bound;
            let graph = write_graph(&GraphFields::of(&desk));
            verdict(&graph, &write_proposal(&ProposalFields::of(proposed)))
        };
        let (latency, margin) = (10, -1);
        assert_eq!(of(12, &[edge(1, 2, 0)]), accepted(10, 2));
        assert_eq!(of(10, &[edge(1, 2, 0)]), accepted(10, 0));
        assert_eq!(of(9, &[edge(1, 2, 0)]), Verdict::Late { latency, margin });
        assert_eq!(of(8, &[edge(1, 2, 0)]), refused(12, 0));
        assert_eq!(of(12, &[]), refused(14, 1));
        assert_eq!(of(12, &[edge(0, 2, 0)]), refused(14, 2));
        assert_eq!(of(12, &[edge(1, 2, 1)]), refused(14, 1));
        let cycle = [edge(0, 2, 0), edge(1, 3, 0), edge(3, 0, 1)];
        assert_eq!(of(12, &cycle), refused(13, 1));
        assert_eq!(of(12, &desk().edges), accepted(9, 3));
        assert_eq!(of(12, &[edge(0, 4, 0)]), refused(6, 1));
    }

    #[test]
    fn only_edges_on_a_cycle_are_kept() {
        let mut graph = desk();
        assert_eq!(feedback_edges(&graph), []);
        assert_eq!(feedforward_edges(&graph), graph.edges);

        // Processors 0 and 1 wait for one another; task 4, alone on its processor, waits for processor 1.
        graph.tasks.push(Task {
            processor: 2,
            time: 1,
        });
        graph.edges = vec![edge(0, 2, 0), edge(2, 4, 0), edge(3, 1, 5), edge(3, 4, 7)];
        let kept = [edge(0, 2, 0), edge(3, 1, 5)];
        assert_eq!(feedback_edges(&graph), kept);
        assert_eq!(feedforward_edges(&graph), [graph.edges[1], graph.edges[3]]);
        let proposed = edge(1, 4, 3);
        let result = result(&graph, &[proposed]);
        assert_eq!(result.edges, [kept[0], kept[1], proposed]);
        assert_eq!((result.tasks, result.bound), (graph.tasks, graph.bound));
    }

    #[test]
    fn cycles_are_those_of_the_result() {
        // Within one processor.
        for (a, b) in [(0, 0), (0, 1), (1, 0)] {
            let mut proposed = desk().edges;
            proposed.insert(1, edge(a, b, 9));
            assert_eq!(judge(&desk(), &proposed), refused(13, 2));
        }
        // With the graph's own edges it would be on a cycle, but they are dropped.
        assert_eq!(judge(&desk(), &[edge(2, 0, 0)]), refused(14, 1));
        // Two that close a cycle together.
        let pair = [edge(2, 0, 0), edge(0, 2, 0)];
        assert_eq!(judge(&desk(), &pair), refused(13, 1));
        // An edge that is kept, proposed once more.
        let mut ring = desk();
        ring.edges = vec![edge(0, 2, 0), edge(2, 0, 1)];
        assert_eq!(judge(&ring, &[]), accepted(7, 5));
        assert_eq!(judge(&ring, &[edge(2, 0, 1)]), refused(13, 1));
    }

    #[test]
    fn the_earliest_edge_on_a_cycle_is_given() {
        // 2 and 4 lie within a processor, 1 and 3 on no cycle.
        let mixed = [edge(0, 2, 0), edge(2, 3, 0), edge(1, 3, 0), edge(0, 1, 1)];
        assert_eq!(places_on_cycles(&result(&desk(), &mixed), &mixed), [2, 4]);
        assert_eq!(judge(&desk(), &mixed), refused(13, 2));
    }

    #[test]
    fn least_delays_agree_with_the_search_over_sums() {
        let mut graph = desk();
        graph.edges = vec![edge(0, 2, 3), edge(1, 3, 1), edge(1, 2, 255), edge(0, 3, 0)];
        for graph in [desk(), graph] {
            let edges = schedule::all_edges(&graph);
            for (from, row) in schedule::least_delays(&graph).into_iter().enumerate() {
                assert_eq!(least_delays_from(4, &edges, from), row);
            }
        }
    }
}
