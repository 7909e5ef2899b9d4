//! Verdicts held against runs.

use super::desk::print;
use super::Generator;
use checker::files::{Edge, Graph};
use checker::proposals;
use checker::runs::{self, Run};
use checker::schedule;
use resync::raw::VerdictAnswer;
use std::collections::BTreeSet;

/// How many runs were tried, and for what verdicts.
#[derive(Default)]
pub struct Tried {
    verdicts: [usize; 16],
    runs: usize,
    /// Random runs that break the graph whose order is lost, besides the one that must.
    breaking: usize,
    /// Results whose cycles were gone through.
    cycles: usize,
}

impl Tried {
    pub fn print(&self) {
        print(&format!(
            "{} runs for {} accepted, {} late and {} that lose an order (of their runs {} more break it); cycles of {} results",
            self.runs,
            self.verdicts[0],
            self.verdicts[15],
            self.verdicts[14],
            self.breaking,
            self.cycles
        ));
    }
}

/// Durations of every turn: mostly short, now and then very long.
fn durations(g: &mut Generator, tasks: usize, turns: usize) -> Vec<Vec<usize>> {
    let duration = |g: &mut Generator| match g.between(0, 9) {
        0 => g.between(1, 1000),
        1..=4 => 1,
        _ => g.between(1, 9),
    };
    (0..turns)
        .map(|_| (0..tasks).map(|_| duration(g)).collect())
        .collect()
}

/// The run in which an order of the graph is seen to be lost, if it is: all durations are 1, but turn 1 of the edge's source takes
/// longer than the sink would wait if it did not wait for it.
fn telling_run(result: &Graph, edge: &Edge) -> Run {
    let turns = edge.delay + 1;
    let mut durations = vec![vec![1; result.tasks.len()]; turns];
    let short = runs::earliest_run(result, &durations).expect("stalls");
    durations[0][edge.source] = 1 + short.start(edge.sink, turns);
    runs::earliest_run(result, &durations).expect("stalls")
}

/// Every cycle that comes to no task twice, from its least task on.
fn simple_cycles(graph: &Graph) -> BTreeSet<Vec<Edge>> {
    let edges = schedule::all_edges(graph);
    let mut cycles = BTreeSet::new();
    let mut paths: Vec<Vec<Edge>> = edges.iter().map(|edge| vec![*edge]).collect();
    while let Some(path) = paths.pop() {
        let (first, last) = (path[0].source, path[path.len() - 1].sink);
        if first == last {
            cycles.insert(path);
            continue;
        }
        let met = |task: usize| path.iter().any(|edge| edge.sink == task);
        for edge in edges.iter().filter(|edge| edge.source == last) {
            if edge.sink == first || (edge.sink > first && !met(edge.sink)) {
                paths.push([&path[..], &[*edge]].concat());
            }
        }
    }
    cycles
}

/// Holds a verdict against what demand 3 says of runs.
pub fn hold_against_runs(
    g: &mut Generator,
    tried: &mut Tried,
    graph: &Graph,
    proposed: &[Edge],
    verdict: &VerdictAnswer,
) {
    let number = verdict.refusal.number as usize;
    let place = verdict.refusal.place as usize;
    tried.verdicts[number] += 1;
    let result = proposals::result(graph, proposed);
    // With many edges there are too many cycles to go through.
    if graph.edges.len() + proposed.len() <= 20 {
        tried.cycles += 1;
        let cycles = simple_cycles(&result);
        let on_cycle = |edge: &Edge| cycles.iter().any(|cycle| cycle.contains(edge));
        let first = proposed.iter().position(on_cycle);
        if number == 13 {
            assert_eq!(first, Some(place - 1), "not the first on a cycle");
        } else {
            assert_eq!(first, None, "on a cycle");
            assert_eq!(cycles, simple_cycles(graph), "other cycles");
        }
    }
    if number == 13 {
        return;
    }

    // An order is lost exactly if its run tells so.
    let lost = graph.edges.iter().position(|edge| {
        tried.runs += 1;
        let run = telling_run(&result, edge);
        assert!(runs::allows(&result, &run));
        let kept = run.satisfies(edge);
        assert!(kept || !runs::allows(graph, &run));
        !kept
    });
    assert_eq!(lost.map_or(0, |index| index + 1), place);
    assert_eq!(lost.is_some(), number == 14);

    // Any runs: none stalls, and if no order is lost, the graph allows them all.
    for _ in 0..4 {
        tried.runs += 1;
        let turns = g.between(1, 6);
        let lasting = durations(g, graph.tasks.len(), turns);
        // The earliest run, or one in which some start later.
        let mut later = vec![vec![0; graph.tasks.len()]; turns];
        if g.once_in(2) {
            for by in later.iter_mut().flatten() {
                *by = g.between(0, 20) * g.between(0, 1);
            }
        }
        let run = runs::delayed_run(&result, &lasting, &later).expect("stalls");
        assert!(runs::allows(&result, &run));
        if number != 14 {
            assert!(runs::allows(graph, &run), "a run breaks the graph");
        } else if !runs::allows(graph, &run) {
            tried.breaking += 1;
        }
    }
    if number == 14 {
        return;
    }

    // The first output at the estimates, and sooner.
    let times = graph.tasks.iter().map(|task| task.time);
    let estimates: Vec<Vec<usize>> = vec![times.collect()];
    let run = runs::earliest_run(&result, &estimates).expect("stalls");
    let end = run.end(graph.output, 1);
    let told = match number {
        15 => verdict.refusal.latency,
        _ => verdict.latency,
    };
    assert_eq!(end, told as usize, "latency told and run");
    assert_eq!(end > graph.bound, number == 15);
    if number == 0 {
        tried.runs += 1;
        let turns = g.between(1, 6);
        let mut lasting = durations(g, graph.tasks.len(), turns);
        for (duration, &time) in lasting[0].iter_mut().zip(&estimates[0]) {
            *duration = if g.once_in(2) {
                time
            } else {
                g.between(1, time)
            };
        }
        let run = runs::earliest_run(&result, &lasting).expect("stalls");
        assert!(run.end(graph.output, 1) <= graph.bound, "misses the bound");
    }
}
