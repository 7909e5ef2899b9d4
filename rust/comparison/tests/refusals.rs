//! How often each call gives each refusal, over files of every sort, lists short and long, and turns right and wrong. Number and place
//! are those of the independent checker.
//!
//! Everything is seeded: a run has the same cases as any other.

use checker::{proposals, schedule};
use comparison::calls::{gives, Given, Refusals, CALLS};
use comparison::generator::desk::{print, shown};
use comparison::generator::Generator;

/// The length that is needed, now and then a shorter or a longer one.
fn room(g: &mut Generator, needed: usize) -> usize {
    match g.between(0, 3) {
        0 => g.between(0, needed.saturating_sub(1)),
        1 => needed + g.between(1, 9),
        _ => needed,
    }
}

#[test]
fn every_refusal_of_every_call() {
    let mut reached = Refusals::default();
    let g = &mut Generator::new(51);
    for _ in 0..60_000 {
        let (file, proposal) = g.pair_of_files();
        let graph = schedule::accept_graph(&file);
        let (tasks, edges) = match &graph {
            Ok(graph) => (graph.tasks.len(), graph.edges.len()),
            Err(_) => (g.between(2, 12), g.between(0, 24)),
        };
        let turns = match g.between(0, 3) {
            0 => g.pick(&[0, 65, 66, 256, 1 << 32, usize::MAX]),
            _ => g.between(1, 64),
        };
        let given = Given {
            graph: &file,
            proposal: &proposal,
            turns: turns as u64,
            table: room(g, tasks * tasks),
            starts: room(g, tasks * turns.min(64)),
            edges: room(g, edges),
        };
        let handed = given.call();
        let verdict = proposals::verdict_beside(&graph, &proposal);
        let expected = given.refusals(&graph, &verdict);
        let proved = handed.refusals();
        assert_eq!(proved, expected, "{}\n{}", shown(&file), shown(&proposal));
        reached.count(&proved);
    }

    print(&format!("\n{} calls\n{}", reached.calls(), reached.lines()));
    for (call, name) in CALLS.iter().enumerate() {
        for number in 1..=17 {
            let count = reached.of(call, number);
            if gives(call, number) {
                assert!(count >= 100, "{name}: too few of {number}");
            } else {
                assert_eq!(count, 0, "{name}: {number}");
            }
        }
    }
}
