//! Hostile files and lists: every call on mutated files at any address, with lists of every length. Nothing beside what is lent may
//! change, nothing at all if the call is refused, nothing past the written part if it is not; and the answers are the independent
//! checker's.
//!
//! Everything is seeded: a run has the same cases as any other.

use checker::files::{write_graph, write_proposal, Graph, GraphFields, ProposalFields};
use checker::{plans, proposals, schedule};
use comparison::calls::{Given, Handed, Refusals, CALLS};
use comparison::expected::{self, records, refusal, Judged};
use comparison::generator::damage::{BYTE_DAMAGES, ROUGH_DAMAGES};
use comparison::generator::desk::{print, shown, DESK};
use comparison::generator::lists::{lend, lent, no_delay, no_edge, no_start, Placed};
use comparison::generator::proposals::KINDS;
use comparison::generator::Generator;
use comparison::guarded::{End, Guarded};
use resync::raw::{self, Refusal};
use std::fmt::Debug;

const FILES: usize = 100_000;

/// An accepted graph and proposals for it, to be mutated.
struct Desk {
    graph: Judged,
    file: Vec<u8>,
    proposals: Vec<Vec<u8>>,
}

impl Desk {
    fn new(g: &mut Generator, graph: Graph) -> Desk {
        let made = KINDS.iter().filter_map(|kind| (kind.make)(g, &graph));
        let written = made.map(|edges| write_proposal(&ProposalFields::of(&edges)));
        Desk {
            proposals: written.collect(),
            file: write_graph(&GraphFields::of(&graph)),
            graph: Ok(graph),
        }
    }

    fn graph(&self) -> &Graph {
        self.graph.as_ref().expect("accepted")
    }
}

/// Most of them small, where a mutated file is more often accepted; the largest too.
fn desks(g: &mut Generator) -> Vec<Desk> {
    let mut graphs = vec![schedule::accept_graph(&DESK).expect("accepted")];
    for _ in 0..110 {
        let (task_count, edge_count) = (g.between(2, 12), g.between(0, 24));
        graphs.push(g.staged_graph(task_count, edge_count));
    }
    for _ in 0..7 {
        let (task_count, edge_count) = (g.between(13, 63), g.between(0, 255));
        graphs.push(g.staged_graph(task_count, edge_count));
    }
    graphs.push(g.staged_graph(64, 256));
    graphs.push(g.chains(15, 256));
    for graph in &mut graphs {
        graph.bound = schedule::latency(graph) + g.pick(&[0, 3, 10, 1000, 100_000]);
    }
    graphs
        .into_iter()
        .map(|graph| Desk::new(g, graph))
        .collect()
}

/// Changes a file; every other one by a few bits alone, since most of the rest do not come past refusal 4.
fn mutate(g: &mut Generator, file: &mut Vec<u8>) {
    let [a_few_bits, ..] = BYTE_DAMAGES;
    let damages = [&BYTE_DAMAGES[..], &ROUGH_DAMAGES].concat();
    let right = file.clone();
    while *file == right {
        if g.once_in(2) {
            a_few_bits.1(g, file);
            continue;
        }
        for _ in 0..g.pick(&[1, 1, 2, 3]) {
            let kind = g.between(0, damages.len() - 1);
            damages[kind].1(g, file);
        }
    }
}

/// Lengths of a list as rounds go on: by turns one that is too short, from 0 up, and one that is long enough.
fn room(round: usize, needed: usize) -> usize {
    match round % 2 {
        0 => round / 2 % needed.max(1),
        _ => needed + round / 2 % 9,
    }
}

/// Holds all that was handed over against the checker, but for what would take it long.
fn hold_against_checker(given: &Given, handed: &Handed, graph: &Judged) {
    let file = || shown(given.graph);
    let verdict = proposals::verdict_beside(graph, given.proposal);
    let refusals = given.refusals(graph, &verdict);
    assert_eq!(handed.refusals(), refusals, "{}", file());
    assert_eq!(handed.figures, expected::figures(graph), "{}", file());
    let verdict = expected::verdict(&verdict);
    assert_eq!(handed.verdict, verdict, "{}", file());

    let (plan, edges) = &handed.plan;
    let planned = plan.refusal.number == 0;
    if !planned {
        let refused = raw::PlanAnswer {
            refusal: plan.refusal,
            ..Default::default()
        };
        assert_eq!(*plan, refused, "{}", file());
    }
    let accepted = match graph {
        Err(_) => {
            let refused = expected::redundant(graph, &[]);
            assert_eq!(handed.redundant, refused, "{}", file());
            return;
        }
        Ok(accepted) => accepted,
    };
    if handed.least_delays.0.number == 0 {
        let table = expected::table_soon(accepted);
        assert_eq!(handed.least_delays.1, table, "{}", file());
    }
    if accepted.tasks.len() > 12 || accepted.edges.len() > 24 {
        return;
    }
    let redundant = expected::redundant(graph, &schedule::redundant_places(accepted));
    assert_eq!(handed.redundant, redundant, "{}", file());
    if handed.timetable.0.number == 0 {
        let starts = expected::starts(accepted, given.turns);
        assert_eq!(handed.timetable.1, starts, "{}", file());
    }
    if planned {
        let expected = plans::plan(accepted);
        assert_eq!(*plan, expected::plan(&expected), "{}", file());
        assert_eq!(*edges, records(&expected.edges), "{}", file());
    }
}

/// Every call on every mutated file: as the graph file of all six, and as the proposal file of one verdict more. About two
/// of three were graph files, the others proposals.
#[test]
fn mutated_files() {
    let g = &mut Generator::new(61);
    let desks = desks(g);
    let mut reached = Refusals::default();
    let mut accepted = 0;
    let verdict = CALLS.iter().position(|call| *call == "verdict");
    for number in 0..FILES {
        let (desk, round) = (&desks[number % desks.len()], number / desks.len());
        let proposal = &desk.proposals[g.between(0, desk.proposals.len() - 1)];
        let mut mutated = match g.between(0, 2) {
            0 => proposal.clone(),
            _ => desk.file.clone(),
        };
        mutate(g, &mut mutated);

        // Every remainder of the three addresses, and other bytes beside them.
        let beside = [0xA5, 0x00, 0xFF][number % 3];
        let placed = Placed::new(&mutated, number % 8, beside);
        let placed_proposal = Placed::new(proposal, number / 8 % 8, beside);
        let placed_graph = Placed::new(&desk.file, number / 64 % 8, beside);

        let turns = match g.between(0, 9) {
            0 => g.pick(&[0, 65, 66, 256, (1 << 32) + 1, usize::MAX]),
            _ => g.between(1, 64),
        };
        let (tasks, edges) = (desk.graph().tasks.len(), desk.graph().edges.len());
        let given = Given {
            graph: placed.file(),
            proposal: placed_proposal.file(),
            turns: turns as u64,
            table: room(round, tasks * tasks),
            starts: room(round, tasks * turns.min(64)),
            edges: room(round, edges),
        };
        let handed = given.call();
        let graph = schedule::accept_graph(&mutated);
        hold_against_checker(&given, &handed, &graph);
        reached.count(&handed.refusals());
        accepted += usize::from(graph.is_ok());

        let as_proposal = raw::verdict(placed_graph.file(), placed.file());
        let judged = proposals::verdict_beside(&desk.graph, &mutated);
        let expected = expected::verdict(&judged);
        assert_eq!(as_proposal, expected, "{}", shown(&mutated));
        reached.count_one(verdict.expect("named"), &as_proposal.refusal);

        assert!(placed.holds(&mutated), "{}", shown(&mutated));
        assert!(placed_proposal.holds(proposal), "{}", shown(&mutated));
        assert!(placed_graph.holds(&desk.file), "{}", shown(&mutated));
    }

    print(&format!(
        "\n{FILES} mutated files, {accepted} of them accepted as graphs; {} calls\n{}",
        reached.calls(),
        reached.lines()
    ));
    for number in 1..=17 {
        let total: usize = (0..6).map(|call| reached.of(call, number)).sum();
        assert!(total >= 100, "too few of {number}");
    }
}

/// Lists of every length, from 0 to some more than is needed: refused and kept if too short, else this is written to the front.
fn every_length<T: Copy + Debug + PartialEq>(
    written: &[T],
    needed: usize,
    pattern: impl Fn(usize) -> T,
    otherwise: Refusal,
    call: impl Fn(&mut [T]) -> Refusal,
) -> usize {
    for room in 0..needed + 9 {
        let (answer, memory) = lend(room, &pattern, &call);
        let (expected, written) = match otherwise.number {
            0 if room < needed => (refusal(16, 0), &[][..]),
            0 => (otherwise, written),
            _ => (otherwise, &[][..]),
        };
        assert_eq!(answer, expected, "list of {room}");
        assert_eq!(memory, lent(room, &pattern, written), "list of {room}");
    }
    needed + 9
}

/// For accepted graphs, and for the same with a bound that is too low.
#[test]
fn every_length_of_every_list() {
    let g = &mut Generator::new(62);
    let desks = desks(g);
    let mut calls = 0;
    for desk in desks.iter().take(30).chain(desks.last()) {
        let graph = desk.graph();
        let mut low = graph.clone();
        low.bound = schedule::latency(graph) - 1;
        let low = write_graph(&GraphFields::of(&low));
        let (tasks, edges) = (graph.tasks.len(), graph.edges.len());
        let table = expected::table_soon(graph);
        let plan = records(&plans::plan(graph).edges);
        for (file, otherwise) in [(&desk.file, refusal(0, 0)), (&low, refusal(12, 0))] {
            calls += every_length(&table, tasks * tasks, no_delay, otherwise, |list| {
                raw::least_delays(file, list)
            });
            for turns in [1, 3, 64] {
                let starts = expected::starts(graph, turns);
                calls += every_length(&starts, starts.len(), no_start, otherwise, |list| {
                    raw::timetable(file, turns, list)
                });
            }
            calls += every_length(&plan, edges, no_edge, otherwise, |list| {
                raw::plan(file, list).refusal
            });
        }
    }
    print(&format!("\nevery length of list: {calls} calls"));
}

/// Files and lists up against pages that must not be touched, at either end: whoever reads a byte past them ends the test. The answers
/// are those of the same calls elsewhere.
#[test]
fn nothing_past_the_ends_is_touched() {
    let g = &mut Generator::new(63);
    let desks = desks(g);
    let mut memory = [0; 5].map(|_: u8| Guarded::new(1 << 21));
    let [graph_memory, proposal_memory, table_memory, starts_memory, edges_memory] = &mut memory;
    for number in 0..20_000 {
        let (desk, round) = (&desks[number % desks.len()], number / desks.len());
        let mut graph = desk.file.clone();
        let mut proposal = desk.proposals[g.between(0, desk.proposals.len() - 1)].clone();
        match g.between(0, 4) {
            0 => (),
            1 => mutate(g, &mut proposal),
            _ => mutate(g, &mut graph),
        }
        let turns = g.between(0, 65);
        let (tasks, edges) = (desk.graph().tasks.len(), desk.graph().edges.len());
        let given = Given {
            graph: &graph,
            proposal: &proposal,
            turns: turns as u64,
            table: room(round, tasks * tasks),
            starts: room(round, tasks * turns),
            edges: room(round, edges),
        };
        let handed = given.call();

        let end = if g.once_in(4) { End::Front } else { End::Back };
        let file: &[u8] = graph_memory.list(end, given.graph);
        let table = table_memory.list(end, &vec![0xA5A5; given.table]);
        let starts = starts_memory.list(end, &vec![0xA5A5_A5A5; given.starts]);
        let edges = edges_memory.list(end, &vec![raw::Edge::default(); given.edges]);
        let refusals = [
            raw::figures(file).refusal,
            raw::least_delays(file, table),
            raw::redundant(file).refusal,
            raw::timetable(file, given.turns, starts),
            raw::verdict(file, proposal_memory.list(end, given.proposal)).refusal,
            raw::plan(file, edges).refusal,
        ];
        assert_eq!(refusals, handed.refusals(), "{}", shown(&graph));
        assert_eq!(table[..handed.least_delays.1.len()], handed.least_delays.1);
        assert_eq!(starts[..handed.timetable.1.len()], handed.timetable.1);
        assert_eq!(edges[..handed.plan.1.len()], handed.plan.1);
    }
}
