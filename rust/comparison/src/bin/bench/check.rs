//! Whole answers and lists of both sides, compared on many generated files.

use checker::files::{write_graph, write_proposal, Edge, Graph, GraphFields, ProposalFields};
use comparison::generator::damage::{BYTE_DAMAGES, GRAPH_DAMAGES, PROPOSAL_DAMAGES};
use comparison::generator::desks::FAULTS;
use comparison::generator::proposals::KINDS;
use comparison::generator::Generator;
use comparison::measured::calls::{compare, Case, CALLS};
use resync::raw;

const ROUNDS: usize = 4000;

/// How many answers had each number.
#[derive(Default)]
struct Numbers([usize; 18]);

impl Numbers {
    /// Compares all calls on two files, and lists of any length.
    fn compare(&mut self, g: &mut Generator, graph: &[u8], proposal: &[u8]) {
        let case = Case {
            name: "a generated file".to_string(),
            graph: graph.to_vec(),
            proposal: proposal.to_vec(),
        };
        for call in &CALLS {
            compare(call, &case);
        }
        let (turns, room) = (g.between(0, 66), g.between(0, 4096));
        let (mut ours, mut theirs) = (vec![9; room], vec![9; room]);
        let answer = raw::timetable(graph, turns as u64, &mut ours);
        assert_eq!(
            answer,
            baseline::timetable(graph, turns as u64, &mut theirs)
        );
        assert_eq!(ours, theirs);
        self.0[answer.number as usize] += 1;
        let (mut ours, mut theirs) = (vec![9; room], vec![9; room]);
        let answer = raw::least_delays(graph, &mut ours);
        assert_eq!(answer, baseline::least_delays(graph, &mut theirs));
        assert_eq!(ours, theirs);
        let mut ours = vec![raw::Edge::default(); room % 257];
        let mut theirs = ours.clone();
        let answer = raw::plan(graph, &mut ours);
        assert_eq!(answer, baseline::plan(graph, &mut theirs));
        assert_eq!(ours, theirs);
        self.0[raw::verdict(graph, proposal).refusal.number as usize] += 1;
    }
}

pub fn run() {
    let mut g = Generator::new(2024);
    let mut numbers = Numbers::default();
    for round in 0..ROUNDS {
        let graph = accepted(&mut g, round);
        let file = write_graph(&GraphFields::of(&graph));
        for kind in &KINDS {
            if let Some(edges) = (kind.make)(&mut g, &graph) {
                let mut proposal = write_proposal(&ProposalFields::of(&edges));
                if g.once_in(8) {
                    proposal = damaged_proposal(&mut g, &edges, graph.tasks.len());
                }
                let verdict = raw::verdict(&file, &proposal);
                assert_eq!(verdict, baseline::verdict(&file, &proposal));
                numbers.0[verdict.refusal.number as usize] += 1;
            }
        }
        let any = g.any_proposal(graph.tasks.len());
        let proposal = write_proposal(&ProposalFields::of(&any));
        numbers.compare(&mut g, &file, &proposal);

        let mut spoilt = graph.clone();
        FAULTS[g.between(0, FAULTS.len() - 1)].1(&mut g, &mut spoilt);
        numbers.compare(&mut g, &write_graph(&GraphFields::of(&spoilt)), &proposal);
        let damaged = damaged_graph(&mut g, &graph);
        numbers.compare(&mut g, &damaged, &proposal);
    }
    println!(
        "{ROUNDS} graphs with proposals, spoilt and damaged ones: all answers and lists equal."
    );
    for (number, count) in numbers.0.iter().enumerate() {
        println!("number {number}: {count}");
    }
}

fn accepted(g: &mut Generator, round: usize) -> Graph {
    let (tasks, edges) = (g.task_count(), g.between(0, 256));
    match round % 6 {
        0 => g.any_accepted_graph(),
        1 => g.staged_graph(tasks, edges),
        2 => g.graph_to_plan(tasks.max(2), edges.max(1)),
        3 => {
            let mut graph = g.graph_of_copies();
            graph.bound = g
                .between(graph.bound / 2, graph.bound)
                .max(checker::schedule::latency(&graph));
            graph
        }
        4 => {
            let chains = g.between(2, 15);
            g.chains(chains, edges)
        }
        _ => {
            let mut graph = g.graph_to_plan(tasks.clamp(2, 24), edges.clamp(1, 60));
            g.set_bound(&mut graph);
            graph
        }
    }
}

fn damaged_graph(g: &mut Generator, graph: &Graph) -> Vec<u8> {
    let mut fields = GraphFields::of(graph);
    if g.once_in(2) {
        GRAPH_DAMAGES[g.between(0, GRAPH_DAMAGES.len() - 1)].1(g, &mut fields);
        return write_graph(&fields);
    }
    let mut file = write_graph(&fields);
    BYTE_DAMAGES[g.between(0, BYTE_DAMAGES.len() - 1)].1(g, &mut file);
    file
}

fn damaged_proposal(g: &mut Generator, edges: &[Edge], tasks: usize) -> Vec<u8> {
    let mut fields = ProposalFields::of(edges);
    if g.once_in(2) {
        PROPOSAL_DAMAGES[g.between(0, PROPOSAL_DAMAGES.len() - 1)].1(g, &mut fields, tasks);
        return write_proposal(&fields);
    }
    let mut file = write_proposal(&fields);
    BYTE_DAMAGES[g.between(0, BYTE_DAMAGES.len() - 1)].1(g, &mut file);
    file
}
