//! The proved verdict against the independent checker, whole answers, and both against numbers of document 01. On small graphs the
//! verdicts are also held against runs: what demand 3 says of them must be so in every run tried.
//!
//! Everything is seeded: a run has the same cases as any other.

use checker::files::{read_proposal, write_graph, write_proposal};
use checker::files::{Edge, Graph, GraphFields, ProposalFields, Task};
use checker::proposals::{self, Verdict};
use checker::schedule;
use comparison::expected::{self, refusal, Judged};
use comparison::generator::damage::{BYTE_DAMAGES, GRAPH_DAMAGES, PROPOSAL_DAMAGES};
use comparison::generator::desk::{edge, flipped, print, shown, small, DESK, PROPOSAL};
use comparison::generator::desks::{FAULTS, LARGEST_BOUND};
use comparison::generator::faults::{every_set_of_faults, Fault};
use comparison::generator::proposals::KINDS;
use comparison::generator::trials::{hold_against_runs, Tried};
use comparison::generator::Generator;
use resync::raw::{self as proved, VerdictAnswer};

// ---- Comparing ----

/// A graph file, and what the checker makes of it.
struct Case<'a> {
    name: &'a str,
    file: Vec<u8>,
    graph: Judged,
}

impl Case<'_> {
    fn new<'a>(name: &'a str, file: &[u8]) -> Case<'a> {
        Case {
            name,
            file: file.to_vec(),
            graph: schedule::accept_graph(file),
        }
    }

    fn of<'a>(name: &'a str, graph: &Graph) -> Case<'a> {
        Case::new(name, &write_graph(&GraphFields::of(graph)))
    }

    /// The verdict on a proposal file: both sides must have the same, and nothing of what is lent may change.
    fn compare(&self, proposal: &[u8]) -> VerdictAnswer {
        let beside = [0xA5; 16];
        let memory = [&beside, &self.file[..], &beside, proposal, &beside].concat();
        let before = memory.clone();
        let (graph_at, proposal_at) = (16, 16 + self.file.len() + 16);
        let proved = proved::verdict(
            &memory[graph_at..graph_at + self.file.len()],
            &memory[proposal_at..proposal_at + proposal.len()],
        );

        let verdict = proposals::verdict_beside(&self.graph, proposal);
        let expected = expected::verdict(&verdict);
        assert!(
            proved == expected,
            "{}\nproved: {proved:?}\nchecker: {verdict:?}\n{}\n{}",
            self.name,
            shown(&self.file),
            shown(proposal)
        );
        assert!(memory == before, "{}: what was lent changed", self.name);
        proved
    }

    fn compare_edges(&self, proposed: &[Edge]) -> VerdictAnswer {
        self.compare(&proposal_file(proposed))
    }
}

fn proposal_file(proposed: &[Edge]) -> Vec<u8> {
    write_proposal(&ProposalFields::of(proposed))
}

/// An answer with this number and place, and everything else 0.
fn refused(number: usize, place: usize) -> VerdictAnswer {
    VerdictAnswer {
        refusal: refusal(number, place),
        ..Default::default()
    }
}

fn accepted(latency: u32, margin: i32) -> VerdictAnswer {
    let mut answer = refused(0, 0);
    (answer.latency, answer.margin) = (latency, margin);
    answer
}

fn late(latency: u32, margin: i32) -> VerdictAnswer {
    let mut answer = refused(15, 0);
    (answer.refusal.latency, answer.refusal.margin) = (latency, margin);
    answer
}

/// How often each verdict was reached; entry 0 counts the proposals accepted.
struct Tally {
    what: &'static str,
    /// Refusals of a graph.
    graph: [usize; 16],
    /// Those of a proposal beside an accepted graph.
    proposal: [usize; 16],
    /// Of its refusals 13, those whose place is above 1.
    above_1: usize,
    /// Of its refusals 13, those with several edges on cycles, and one on none among or after them.
    mixed: usize,
}

impl Tally {
    fn new(what: &'static str) -> Tally {
        Tally {
            what,
            graph: [0; 16],
            proposal: [0; 16],
            above_1: 0,
            mixed: 0,
        }
    }

    fn compare(&mut self, case: &Case, proposal: &[u8]) -> VerdictAnswer {
        let verdict = case.compare(proposal);
        let number = verdict.refusal.number as usize;
        match &case.graph {
            Err(_) => self.graph[number] += 1,
            Ok(graph) => {
                self.proposal[number] += 1;
                if number == 13 {
                    self.count_places(graph, proposal);
                }
            }
        }
        verdict
    }

    /// Counts a proposal that is refused with 13 by where its edges on cycles stand.
    fn count_places(&mut self, graph: &Graph, proposal: &[u8]) {
        let proposed = read_proposal(proposal, graph.tasks.len()).expect("well-formed");
        let result = proposals::result(graph, &proposed);
        let places = proposals::places_on_cycles(&result, &proposed);
        let from_first = proposed.len() + 1 - places[0];
        self.above_1 += usize::from(places[0] > 1);
        self.mixed += usize::from(places.len() > 1 && places.len() < from_first);
    }

    fn compare_edges(&mut self, case: &Case, proposed: &[Edge]) -> VerdictAnswer {
        self.compare(case, &proposal_file(proposed))
    }

    /// Prints the counts and asserts that there are enough of each: a hundred of every number named, of the graph and of the
    /// proposal, 0 for accepted; if 13 is named, a hundred with a place above 1, and a hundred mixed ones.
    fn close(&self, verdicts: usize, of_graph: &[usize], of_proposal: &[usize]) {
        let total: usize = self.graph.iter().chain(&self.proposal).sum();
        let mut lines = format!("\n{}: {total} verdicts", self.what);
        lines += &format!("; accepted {}", self.proposal[0]);
        for (who, reached) in [("graph", self.graph), ("proposal", self.proposal)] {
            for (number, count) in reached.iter().enumerate().skip(1) {
                if *count > 0 {
                    lines += &format!("; {who} {number}: {count}");
                }
            }
        }
        let (above_1, mixed) = (self.above_1, self.mixed);
        lines += &format!("; of 13 above place 1: {above_1}, mixed: {mixed}");
        print(&lines);
        assert!(total >= verdicts, "{}: too few verdicts", self.what);
        let enough = above_1.min(mixed) >= 100 || !of_proposal.contains(&13);
        assert!(enough, "{}: too few places of 13", self.what);
        for (who, reached, numbers) in [
            ("graph", self.graph, of_graph),
            ("proposal", self.proposal, of_proposal),
        ] {
            for &number in numbers {
                let enough = reached[number] >= 100;
                assert!(enough, "{}: too few of {number} for a {who}", self.what);
            }
        }
    }
}

/// The graph with another bound.
fn bounded(graph: &Graph, bound: usize) -> Graph {
    let mut graph = graph.clone();
    graph.bound = bound;
    graph
}

// ---- Many proposals, counted ----

/// One proposal of each kind beside the graph, each at bounds where the verdict changes. The graph has the largest bound, at which
/// none is late.
fn every_kind(g: &mut Generator, tally: &mut Tally, graph: &Graph) {
    let latency = schedule::latency(graph);
    for kind in &KINDS {
        let proposed = match (kind.make)(g, graph) {
            Some(proposed) => proposed,
            None => continue,
        };
        let file = proposal_file(&proposed);
        let mut at = |bound: usize| {
            let case = Case::of(kind.name, &bounded(graph, bound));
            let verdict = tally.compare(&case, &file);
            (verdict.refusal.number as usize, verdict.latency as usize)
        };

        let (number, result_latency) = at(LARGEST_BOUND);
        assert!(kind.numbers.contains(&number), "{}: {number}", kind.name);
        if number == 0 {
            assert!(result_latency >= latency);
            for bound in result_latency - 1..=result_latency + 1 {
                let expected = if bound < latency {
                    12
                } else if bound < result_latency {
                    15
                } else {
                    0
                };
                assert_eq!(at(bound).0, expected, "{}, bound {bound}", kind.name);
            }
            let between = at(g.between(latency, result_latency));
            assert!([0, 15].contains(&between.0));
        } else {
            // The bound has no part in these, if it is not too low for the graph.
            assert_eq!(at(latency).0, number);
            let low = g.between(0, latency - 1);
            assert_eq!(at(low).0, 12);
        }
    }
}

#[test]
fn every_kind_of_proposal_for_small_graphs() {
    let mut tally = Tally::new("small graphs");
    let g = &mut Generator::new(21);
    for _ in 0..5000 {
        let task_count = g.between(2, 9);
        let edge_count = g.between(0, 20);
        let graph = g.staged_graph(task_count, edge_count);
        every_kind(g, &mut tally, &graph);
    }
    tally.close(300_000, &[12], &[0, 13, 14, 15]);
}

#[test]
fn every_kind_of_proposal_for_graphs_of_any_size() {
    let mut tally = Tally::new("graphs of any size");
    let g = &mut Generator::new(22);
    for _ in 0..300 {
        let task_count = g.task_count();
        let edge_count = g.between(0, 256);
        let graph = g.staged_graph(task_count, edge_count);
        every_kind(g, &mut tally, &graph);
    }
    tally.close(20_000, &[12], &[0, 13, 14, 15]);
}

/// 64 tasks, four on each processor. Those of the first eight are joined by feedback edges, so many; nothing else is. Input and
/// output are the first and last task of the ninth.
fn two_parts(g: &mut Generator, feedback: usize) -> Graph {
    let tasks = (0..64).map(|v| Task {
        processor: v / 4,
        time: g.between(1, 65_535),
    });
    let tasks: Vec<Task> = tasks.collect();
    let mut edges: Vec<Edge> = (0..8).map(|p| edge(4 * p, (4 * p + 4) % 32, 1)).collect();
    while edges.len() < feedback {
        let (source, sink) = (g.between(0, 31), g.between(0, 31));
        let added = edge(source, sink, g.between(1, 255));
        if source / 4 != sink / 4 && !edges.contains(&added) {
            edges.push(added);
        }
    }
    g.shuffle(&mut edges);
    Graph {
        tasks,
        edges,
        input: 32,
        output: 35,
        bound: LARGEST_BOUND,
    }
}

#[test]
fn largest_results() {
    let mut tally = Tally::new("largest results");
    let g = &mut Generator::new(23);
    for round in 0..300 {
        // All are feedback edges, or the last is not: nothing else leads to the last processor.
        let feedforward = edge(g.between(0, 31), 63, g.between(0, 9));
        let mut graph = two_parts(g, 256 - round % 2);
        if round % 2 == 1 {
            graph.edges.push(feedforward);
        }
        assert_eq!(graph.edges.len(), 256);
        let mut proposed = Vec::new();
        while proposed.len() < 255 {
            let delay = if g.once_in(8) { 0 } else { g.between(1, 255) };
            let added = edge(g.between(0, 31), g.between(32, 59), delay);
            if !proposed.contains(&added) {
                proposed.push(added);
            }
        }
        proposed.insert(g.pick(&[0, 128, 255]), feedforward);

        let case = Case::of("largest", &graph);
        let verdict = tally.compare_edges(&case, &proposed);
        assert_eq!(verdict.refusal.number, 0);
        let latency = schedule::latency(&graph);
        for bound in [latency - 1, verdict.latency as usize - 1] {
            let case = Case::of("largest, low bound", &bounded(&graph, bound));
            tally.compare_edges(&case, &proposed);
        }

        // One of them spoilt: the first, one in between, the last.
        for at in [0, g.between(1, 254), 255] {
            let with = |spoilt: Edge| {
                let mut proposed = proposed.clone();
                proposed[at] = spoilt;
                proposed
            };
            let on_cycle = with(edge(g.between(0, 31), g.between(0, 31), g.between(0, 255)));
            let verdict = tally.compare_edges(&case, &on_cycle);
            assert_eq!(verdict, refused(13, at + 1));
            // One back lies on a cycle with every edge to the processor that it leaves.
            let back = edge(g.between(32, 59), g.between(0, 31), 255);
            let closed = with(back);
            let mut edges = closed.iter();
            let first = edges.position(|e| *e == back || e.sink / 4 == back.source / 4);
            let verdict = tally.compare_edges(&case, &closed);
            assert_eq!(verdict, refused(13, first.expect("itself") + 1));
            let other = (at + 1) % 256;
            let verdict = tally.compare_edges(&case, &with(proposed[other]));
            assert_eq!(verdict, refused(8, at.max(other) + 1));
        }
        let mut lost = proposed.clone();
        lost.retain(|edge| *edge != feedforward);
        let verdict = tally.compare_edges(&case, &lost);
        if round % 2 == 1 {
            assert_eq!(verdict, refused(14, 256));
        } else {
            assert_eq!(verdict.refusal.number, 0);
        }
    }
    tally.close(3000, &[12], &[0, 8, 13, 14, 15]);
}

#[test]
fn many_damaged_files() {
    let mut tally = Tally::new("damaged files");
    let g = &mut Generator::new(24);
    let any_graph = |g: &mut Generator| {
        let task_count = g.between(2, 12);
        let edge_count = g.between(0, 24);
        let mut graph = g.staged_graph(task_count, edge_count);
        graph.bound = schedule::latency(&graph) + g.between(0, 9);
        graph
    };
    let any_proposed = |g: &mut Generator, graph: &Graph| {
        let kind = &KINDS[g.between(0, KINDS.len() - 1)];
        (kind.make)(g, graph).unwrap_or_default()
    };

    for length in 0..=900 {
        let other = g.between(0, 700);
        let case = Case::new("random bytes", &g.bytes(length));
        tally.compare(&case, &g.bytes(other));
        tally.compare(&Case::new("random proposal", &DESK), &g.bytes(length));
    }
    // A damaged graph; the proposal is right for what it was, or damaged too.
    for (name, damage) in GRAPH_DAMAGES {
        for _ in 0..1000 {
            let graph = any_graph(g);
            let mut proposal = ProposalFields::of(&any_proposed(g, &graph));
            let mut fields = GraphFields::of(&graph);
            damage(g, &mut fields);
            let case = Case::new(name, &write_graph(&fields));
            tally.compare(&case, &write_proposal(&proposal));
            let other = PROPOSAL_DAMAGES[g.between(0, PROPOSAL_DAMAGES.len() - 1)].1;
            other(g, &mut proposal, graph.tasks.len());
            tally.compare(&case, &write_proposal(&proposal));
        }
    }
    for (name, spoil) in FAULTS {
        for _ in 0..500 {
            let mut graph = any_graph(g);
            let mut proposal = proposal_file(&any_proposed(g, &graph));
            spoil(g, &mut graph);
            let case = Case::of(name, &graph);
            tally.compare(&case, &proposal);
            BYTE_DAMAGES[g.between(0, BYTE_DAMAGES.len() - 1)].1(g, &mut proposal);
            tally.compare(&case, &proposal);
        }
    }
    // A damaged proposal beside an accepted graph.
    for (name, damage) in PROPOSAL_DAMAGES {
        for _ in 0..2000 {
            let graph = any_graph(g);
            let mut proposal = ProposalFields::of(&any_proposed(g, &graph));
            damage(g, &mut proposal, graph.tasks.len());
            tally.compare(&Case::of(name, &graph), &write_proposal(&proposal));
        }
    }
    for (name, damage) in BYTE_DAMAGES {
        for _ in 0..1000 {
            let graph = any_graph(g);
            let mut file = write_graph(&GraphFields::of(&graph));
            let mut proposal = proposal_file(&any_proposed(g, &graph));
            damage(g, &mut proposal);
            tally.compare(&Case::of(name, &graph), &proposal);
            damage(g, &mut file);
            tally.compare(&Case::new(name, &file), &proposal);
        }
    }
    // Faults that meet.
    for _ in 0..10_000 {
        let graph = any_graph(g);
        let mut proposal = ProposalFields::of(&any_proposed(g, &graph));
        for _ in 0..g.between(2, 4) {
            let damage = PROPOSAL_DAMAGES[g.between(0, PROPOSAL_DAMAGES.len() - 1)].1;
            damage(g, &mut proposal, graph.tasks.len());
        }
        let case = Case::of("several damages", &graph);
        tally.compare(&case, &write_proposal(&proposal));
    }

    for file in flipped(DESK) {
        let name = "example desk, every one or two bits flipped";
        tally.compare(&Case::new(name, &file), &PROPOSAL);
    }
    let desk = Case::new("example proposal, one or two bits flipped", &DESK);
    for file in flipped(PROPOSAL) {
        tally.compare(&desk, &file);
    }
    let of_graph: Vec<usize> = (1..=12).collect();
    tally.close(50_000, &of_graph, &[0, 1, 2, 3, 4, 6, 8, 13, 14, 15]);
}

#[test]
fn the_same_file_lent_twice() {
    let g = &mut Generator::new(25);
    for _ in 0..1000 {
        let graph = g.any_accepted_graph();
        let proposal = proposal_file(&g.any_proposal(graph.tasks.len()));
        for file in [write_graph(&GraphFields::of(&graph)), proposal] {
            let verdict = proposals::verdict(&file, &file);
            let proved = proved::verdict(&file, &file);
            assert_eq!(proved, expected::verdict(&verdict));
        }
    }
}

// ---- Verdicts held against runs ----

#[test]
fn verdicts_agree_with_runs() {
    let mut tally = Tally::new("graphs that are run");
    let mut tried = Tried::default();
    let g = &mut Generator::new(26);
    for _ in 0..3000 {
        let mut graph = g.graph_to_run();
        let latency = schedule::latency(&graph);
        for kind in &KINDS {
            let proposed = match (kind.make)(g, &graph) {
                Some(proposed) => proposed,
                None => continue,
            };
            graph.bound = LARGEST_BOUND;
            if let Verdict::Accepted { latency: most, .. } = proposals::judge(&graph, &proposed) {
                graph.bound = g.between(latency, most + 1);
            }
            let verdict = tally.compare_edges(&Case::of(kind.name, &graph), &proposed);
            hold_against_runs(g, &mut tried, &graph, &proposed, &verdict);
        }
    }
    tally.close(50_000, &[], &[0, 13, 14, 15]);
    tried.print();
}

/// Every proposal of up to three edges between processors, of delay 0 to 2, beside the example desk and beside one with a feedback
/// edge and a feedforward edge of delay 1.
#[test]
fn every_short_proposal_agrees_with_runs() {
    let mut tally = Tally::new("short proposals");
    let mut tried = Tried::default();
    let g = &mut Generator::new(29);
    let desk = schedule::accept_graph(&DESK).expect("accepted");
    let mut ring = desk.clone();
    ring.tasks[3].processor = 2;
    ring.edges = vec![edge(0, 2, 0), edge(2, 0, 1), edge(1, 3, 0), edge(2, 3, 1)];

    for graph in [desk, ring] {
        let apart = |e: &Edge| graph.tasks[e.source].processor != graph.tasks[e.sink].processor;
        let any = (0..48).map(|e| edge(e / 12, e / 3 % 4, e % 3));
        let any: Vec<Edge> = any.filter(apart).collect();
        let mut all = vec![Vec::new()];
        for third in 0..any.len() {
            all.push(vec![any[third]]);
            for second in 0..third {
                all.push(vec![any[third], any[second]]);
                all.extend((0..second).map(|first| vec![any[second], any[first], any[third]]));
            }
        }
        // From the latency to that of all tasks one after another.
        for bound in schedule::latency(&graph)..=10 {
            let graph = bounded(&graph, bound);
            let case = Case::of("short proposal", &graph);
            for proposed in &all {
                let verdict = tally.compare_edges(&case, proposed);
                hold_against_runs(g, &mut tried, &graph, proposed, &verdict);
            }
        }
    }
    tally.close(13_000, &[], &[0, 13, 14]);
    tried.print();
}

// ---- Named files, with the answers of document 01 ----

#[test]
fn example_desk() {
    let at = |bound: u8, proposed: &[Edge]| {
        let mut file = DESK;
        file[6] = bound;
        Case::new("example desk", &file).compare_edges(proposed)
    };
    assert_eq!(
        Case::new("example", &DESK).compare(&PROPOSAL),
        accepted(10, 2)
    );
    let example = [edge(1, 2, 0)];
    assert_eq!(at(12, &example), accepted(10, 2));
    assert_eq!(at(10, &example), accepted(10, 0));
    assert_eq!(at(9, &example), late(10, -1));
    assert_eq!(at(8, &example), refused(12, 0));
    assert_eq!(at(12, &[]), refused(14, 1));
    assert_eq!(at(12, &[edge(0, 2, 0)]), refused(14, 2));
    assert_eq!(at(12, &[edge(1, 2, 1)]), refused(14, 1));
    let cycle = [edge(0, 2, 0), edge(1, 3, 0), edge(3, 0, 1)];
    assert_eq!(at(12, &cycle), refused(13, 1));
    // On cycles are 2 and 4.
    let mixed = [edge(0, 2, 0), edge(2, 3, 0), edge(1, 3, 0), edge(0, 1, 1)];
    assert_eq!(at(12, &mixed), refused(13, 2));
    // Its own edges, and those of them that are needed.
    assert_eq!(
        at(9, &[edge(0, 2, 0), edge(1, 3, 0), edge(0, 3, 0)]),
        accepted(9, 0)
    );
    assert_eq!(at(9, &[edge(0, 2, 0), edge(1, 3, 0)]), accepted(9, 0));
}

/// Tasks 0 to 3 each alone on a processor, with these times. Input 0, output 1, and the largest bound.
fn lone_tasks(times: [usize; 4], edges: &[Edge]) -> Graph {
    let tasks = (0..4).map(|processor| Task {
        processor,
        time: times[processor],
    });
    Graph {
        tasks: tasks.collect(),
        edges: edges.to_vec(),
        input: 0,
        output: 1,
        bound: LARGEST_BOUND,
    }
}

/// What wrong programs would get wrong, as document 01 lists them, and what lies near.
#[test]
fn wrong_programs() {
    let of = |graph: &Graph, proposed: &[Edge]| Case::of("named", graph).compare_edges(proposed);
    let most = LARGEST_BOUND as i32;
    let (first, second, third) = (edge(0, 1, 0), edge(2, 3, 4), edge(1, 2, 1));

    // Feedback edges are kept: nothing need be proposed. Proposed again they are on a cycle.
    let ring = lone_tasks([1, 2, 3, 4], &[first, edge(1, 0, 5)]);
    assert_eq!(of(&ring, &[]), accepted(3, most - 3));
    assert_eq!(of(&ring, &[edge(1, 0, 5)]), refused(13, 1));
    assert_eq!(of(&ring, &[edge(2, 3, 0), edge(1, 0, 6)]), refused(13, 2));

    // Cycles are those of the result: the graph's own path from 1 to 2 is gone, and 14 comes; two proposed edges close one.
    let row = lone_tasks([1, 2, 3, 4], &[first, third]);
    assert_eq!(of(&row, &[first, edge(2, 1, 0)]), refused(14, 2));
    assert_eq!(of(&row, &[first, third, edge(2, 1, 0)]), refused(13, 2));
    let apart = lone_tasks([1, 2, 3, 4], &[first]);
    let closing = [first, edge(2, 3, 0), edge(3, 2, 0)];
    assert_eq!(of(&apart, &closing), refused(13, 2));

    // Two that are redundant one by one cannot go together: equal edges are refused, and of unequal ones one is needed.
    let twice = lone_tasks([1, 2, 3, 4], &[first, second, second]);
    assert_eq!(of(&twice, &[first]), refused(8, 3));
    let parallel = lone_tasks([1, 2, 3, 4], &[first, edge(2, 3, 5), second]);
    assert_eq!(of(&parallel, &[first, second]), accepted(3, most - 3));
    assert_eq!(of(&parallel, &[first, edge(2, 3, 5)]), refused(14, 3));
    assert_eq!(of(&parallel, &[first, edge(2, 3, 6)]), refused(14, 2));
    assert_eq!(of(&parallel, &[first]), refused(14, 2));

    // Latency counts paths from any task, and edges into the input too: only the file's graph must have none.
    let longest = |into: Edge| of(&apart, &[first, into]);
    assert_eq!(longest(edge(3, 1, 0)), accepted(6, most - 6));
    assert_eq!(longest(edge(3, 1, 1)), accepted(3, most - 3));
    assert_eq!(longest(edge(3, 0, 0)), accepted(7, most - 7));

    // Margins from the smallest to the largest.
    let mut chain = Graph {
        tasks: (0..64)
            .map(|v| Task {
                processor: v % 16,
                time: if v < 2 { 1 } else { 65_535 },
            })
            .collect(),
        edges: vec![first],
        input: 0,
        output: 1,
        bound: 2,
    };
    // Processors 2 to 15 with all their tasks one after another, then input and output.
    let mut proposed: Vec<Edge> = (2..15).map(|p| edge(48 + p, p + 1, 0)).collect();
    proposed.extend([edge(63, 0, 0), first]);
    let latency = 14 * 4 * 65_535 + 2;
    assert_eq!(of(&chain, &proposed), late(latency, 2 - latency as i32));
    chain.bound = LARGEST_BOUND;
    assert_eq!(
        of(&chain, &proposed),
        accepted(latency, most - latency as i32)
    );
    assert_eq!(of(&chain, &[first]), accepted(2, most - 2));
}

/// Every set of faults: the answer must be that of the first, in document 01's sequence, those of the graph before those of the
/// proposal. `files.rs` has every fault of a file.
#[test]
fn sequence_of_refusals() {
    // Of the small graph's edges 0 -> 2, 1 -> 3, 4 -> 5, 5 -> 4 and 2 -> 4: only 4 -> 5 and 5 -> 4 are feedback edges.
    let mut graph = small();
    graph.edges.retain(|edge| edge.sink > 1);
    graph.edge_count = 5;
    let graph_faults: [Fault<GraphFields>; 14] = [
        ("no header", (1, 0), |_| (), |b| b.truncate(6)),
        ("version", (2, 0), |f| f.version = 0, |_| ()),
        ("tasks", (3, 0), |f| f.task_count = 0, |_| ()),
        ("short", (1, 0), |_| (), |b| b.truncate(b.len() - 1)),
        ("long", (4, 0), |_| (), |b| b.push(0)),
        ("filling", (4, 0), |f| f.filling = 4, |_| ()),
        ("output", (6, 0), |f| f.output = 63, |_| ()),
        ("task 5", (5, 5), |f| f.tasks[5].time = 0, |_| ()),
        ("edge 2", (7, 2), |f| f.edges[1].sink = 0, |_| ()),
        ("edge 5 as 1", (8, 5), |f| f.edges[4] = f.edges[0], |_| ()),
        ("cycle", (9, 0), |f| f.edges[3].delay = 0, |_| ()),
        ("input", (10, 0), |f| f.input = 1, |_| ()),
        (
            "no path",
            (11, 0),
            |f| f.output = if f.output == 3 { 5 } else { f.output },
            |_| (),
        ),
        ("bound", (12, 0), |f| f.bound = 3, |_| ()),
    ];
    let proposal = ProposalFields::of(&[
        edge(0, 2, 0),
        edge(1, 3, 0),
        edge(2, 4, 3),
        edge(0, 4, 9),
        edge(0, 4, 10),
        edge(0, 5, 7),
        edge(1, 5, 7),
    ]);
    let proposal_faults: [Fault<ProposalFields>; 13] = [
        ("no header", (1, 0), |_| (), |b| b.truncate(1)),
        ("version", (2, 0), |f| f.version = 9, |_| ()),
        ("edges", (3, 0), |f| f.edge_count = 511, |_| ()),
        ("short", (1, 0), |_| (), |b| b.truncate(b.len() - 1)),
        ("long", (4, 0), |_| (), |b| b.push(0)),
        ("zero bits", (4, 0), |f| f.two_zero_bits = 1, |_| ()),
        ("filling", (4, 0), |f| f.filling = 1, |_| ()),
        ("edge 4", (6, 4), |f| f.edges[3].sink = 6, |_| ()),
        ("edge 5 as 4", (8, 5), |f| f.edges[4] = f.edges[3], |_| ()),
        ("cycle at 3", (13, 3), |f| f.edges[2].source = 4, |_| ()),
        ("cycle at 6", (13, 6), |f| f.edges[5].source = 5, |_| ()),
        ("order", (14, 5), |f| f.edges[2].delay = 4, |_| ()),
        ("late", (15, 0), |f| f.edges[6] = edge(1, 2, 0), |_| ()),
    ];
    let g = &mut Generator::new(27);
    let graphs = every_set_of_faults(&graph, &graph_faults, write_graph);
    let proposals = every_set_of_faults(&proposal, &proposal_faults, write_proposal);
    let mut tally = Tally::new("sequence");
    let mut gets = |name: String, graph: &[u8], proposal: &[u8], first: (usize, usize)| {
        let verdict = tally.compare(&Case::new(&name, graph), proposal);
        let expected = match first {
            (0, _) => accepted(14, 0),
            (15, _) => late(15, -1),
            (number, place) => refused(number, place),
        };
        assert_eq!(verdict, expected, "{name}");
    };
    for proposal in &proposals {
        gets(
            proposal.name.clone(),
            &graphs[0].file,
            &proposal.file,
            proposal.first(),
        );
    }
    for graph in &graphs[1..] {
        let proposal = &proposals[g.between(0, proposals.len() - 1)];
        let name = format!("graph {}, proposal {}", graph.name, proposal.name);
        gets(name, &graph.file, &proposal.file, graph.first());
    }
    tally.close(15_000, &[], &[]);
}

// ---- The checker against itself ----

/// Nothing proved is called.
#[test]
fn checker_finds_the_same_least_delays_twice() {
    let g = &mut Generator::new(28);
    for _ in 0..300 {
        let graph = g.any_accepted_graph();
        let edges = schedule::all_edges(&graph);
        for (from, row) in schedule::least_delays(&graph).iter().enumerate() {
            let found = proposals::least_delays_from(graph.tasks.len(), &edges, from);
            assert_eq!(&found, row);
        }
    }
}
