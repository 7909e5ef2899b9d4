//! Refusals 1 to 8 of the two files through the calls, against the independent checker, and both against numbers that document 01
//! gives. A graph file goes through all six calls, which must give the same refusal; a proposal through the verdict, beside graphs of
//! 2 to 64 tasks. What is read of accepted files shows in what the calls hand over.
//!
//! Everything is seeded: a run has the same cases as any other.

use checker::files::{bytes_for, write_graph, write_proposal};
use checker::files::{Edge, Graph, GraphFields, ProposalFields, Task};
use checker::{proposals, schedule};
use comparison::expected::{self, refusal, Judged};
use comparison::generator::damage::{BYTE_DAMAGES, GRAPH_DAMAGES, PROPOSAL_DAMAGES};
use comparison::generator::desk::{edge, flipped, print, shown, small, DESK, PROPOSAL};
use comparison::generator::desks::LARGEST_BOUND;
use comparison::generator::faults::{every_set_of_faults, Fault};
use comparison::generator::lists::{lend, lent, no_delay, no_edge, no_start, BESIDE};
use comparison::generator::Generator;
use resync::raw::{self as proved, FiguresAnswer, VerdictAnswer};
use std::fmt::Debug;

/// Numbers of tasks of the graphs that every sort of proposal is tried beside.
const TASK_COUNTS: [usize; 12] = [2, 3, 4, 5, 15, 16, 17, 32, 33, 62, 63, 64];

/// A proposal of no edge.
const NOTHING: [u8; 2] = [0x08, 0x00];

// ---- Comparing ----

/// What the calls hand over for a graph file: least delays and the starts of two turns (none if it is refused), and the verdict on a
/// proposal of no edge.
#[derive(Debug)]
struct Read {
    figures: FiguresAnswer,
    table: Vec<u16>,
    starts: Vec<u32>,
    verdict: VerdictAnswer,
}

/// All six calls on a graph file, with lists of the largest length needed.
fn compare_graph(case: &str, file: &[u8]) -> Read {
    let graph = schedule::accept_graph(file);
    let expected = expected::figures(&graph);
    let figures = proved::figures(file);
    same(case, file, "figures", &figures, &expected);

    let refusal = expected.refusal;
    let redundant = proved::redundant(file).refusal;
    same(case, file, "redundant", &redundant, &refusal);

    let accepted = graph.as_ref().ok();
    let table = accepted.map(expected::table_soon).unwrap_or_default();
    let room = 64 * 64;
    let (answer, list) = lend(room, no_delay, |list| proved::least_delays(file, list));
    same(case, file, "least delays", &answer, &refusal);
    same(case, file, "table", &list, &lent(room, no_delay, &table));

    let starts = accepted.map(|graph| expected::starts(graph, 2));
    let starts = starts.unwrap_or_default();
    let room = 2 * 64;
    let (answer, list) = lend(room, no_start, |list| proved::timetable(file, 2, list));
    same(case, file, "timetable", &answer, &refusal);
    same(case, file, "starts", &list, &lent(room, no_start, &starts));

    // Which edges a plan has is compared in `plans.rs`.
    let (answer, list) = lend(256, no_edge, |list| proved::plan(file, list));
    same(case, file, "plan", &answer.refusal, &refusal);
    let written = &list[BESIDE..BESIDE + answer.length as usize];
    same(case, file, "edges", &list, &lent(256, no_edge, written));

    let verdict = compare_verdict(case, file, &graph, &NOTHING);
    Read {
        figures,
        table,
        starts,
        verdict,
    }
}

/// The verdict on a proposal file beside a graph file that the checker has judged.
fn compare_verdict(case: &str, file: &[u8], graph: &Judged, proposal: &[u8]) -> VerdictAnswer {
    let proved = proved::verdict(file, proposal);
    let verdict = proposals::verdict_beside(graph, proposal);
    let expected = expected::verdict(&verdict);
    assert!(
        proved == expected,
        "{case}\nproved: {proved:?}\nchecker: {verdict:?}\n{}\n{}",
        shown(file),
        shown(proposal)
    );
    proved
}

fn same<T: Debug + PartialEq>(case: &str, file: &[u8], what: &str, proved: &T, expected: &T) {
    assert!(
        proved == expected,
        "{case}: {what}\nproved: {proved:?}\nchecker: {expected:?}\n{}",
        shown(file)
    );
}

/// Both sides, in all calls, must give this refusal, 0 and 0 for none.
fn graph_gets(case: &str, file: &[u8], number: usize, place: usize) {
    let figures = compare_graph(case, file).figures;
    assert_eq!(figures.refusal, refusal(number, place), "{case}");
}

/// An accepted graph to judge proposals beside, and its file.
struct Desk {
    graph: Judged,
    file: Vec<u8>,
}

impl Desk {
    /// So many tasks. 0, the input, and 1, the output, are each alone on a processor, and the only edge leads from 0 to 1.
    fn new(task_count: usize) -> Desk {
        let tasks = (0..task_count).map(|v| Task {
            processor: if v < 2 { v } else { 2 + v % 14 },
            time: 1 + 1009 * v,
        });
        let graph = Graph {
            tasks: tasks.collect(),
            edges: vec![edge(0, 1, 0)],
            input: 0,
            output: 1,
            bound: 100_000,
        };
        assert_eq!(schedule::judge(&graph), Ok(()));
        Desk {
            file: write_graph(&GraphFields::of(&graph)),
            graph: Ok(graph),
        }
    }

    /// Those of 2 to 64 tasks, each at the place of its number of tasks; at 0 and 1 stands that of 2.
    fn every_size() -> Vec<Desk> {
        (0..=64)
            .map(|tasks: usize| Desk::new(tasks.max(2)))
            .collect()
    }

    fn compare(&self, case: &str, proposal: &[u8]) -> VerdictAnswer {
        compare_verdict(case, &self.file, &self.graph, proposal)
    }

    /// Both sides must give this refusal, 0 and 0 for none.
    fn gets(&self, case: &str, proposal: &[u8], number: usize, place: usize) {
        let answer = self.compare(case, proposal).refusal;
        assert_eq!(
            answer,
            refusal(number, place),
            "{case}\n{}",
            shown(&self.file)
        );
    }

    /// So many edges, 1 to 256, that are on no cycle and keep the order of 0 and 1: they lead to a later processor, the last of which
    /// is that of 1.
    fn kept(&self, g: &mut Generator, edge_count: usize) -> Vec<Edge> {
        let tasks = &self.graph.as_ref().expect("accepted").tasks;
        let rank = |task: usize| match tasks[task].processor {
            1 => 16,
            processor => processor,
        };
        let mut edges = vec![edge(0, 1, 0)];
        while edges.len() < edge_count {
            let (one, other) = (g.between(0, tasks.len() - 1), g.between(0, tasks.len() - 1));
            let delay = if g.once_in(4) { 0 } else { g.between(0, 255) };
            let added = if rank(one) < rank(other) {
                edge(one, other, delay)
            } else {
                edge(other, one, delay)
            };
            if rank(one) != rank(other) && !edges.contains(&added) {
                edges.push(added);
            }
        }
        g.shuffle(&mut edges);
        edges
    }

    /// A well-formed proposal; every other one keeps the order, so that what is read shows.
    fn well_formed(&self, g: &mut Generator) -> Vec<Edge> {
        let tasks = self.graph.as_ref().expect("accepted").tasks.len();
        if g.once_in(2) {
            let edge_count = g.between(1, 16);
            self.kept(g, edge_count)
        } else {
            g.any_proposal(tasks)
        }
    }
}

/// How often each refusal was reached; entry 0 counts the files that are accepted.
struct Tally {
    what: &'static str,
    reached: [usize; 16],
}

impl Tally {
    fn new(what: &'static str) -> Tally {
        let reached = [0; 16];
        Tally { what, reached }
    }

    fn graph(&mut self, case: &str, file: &[u8]) {
        let number = compare_graph(case, file).figures.refusal.number;
        self.reached[number as usize] += 1;
    }

    fn proposal(&mut self, case: &str, file: &[u8], desk: &Desk) {
        let number = desk.compare(case, file).refusal.number;
        self.reached[number as usize] += 1;
    }

    /// Prints the counts and asserts that there are enough: a hundred of each refusal named, and a thousand accepted.
    fn close(&self, cases: usize, refusals: &[usize]) {
        let total: usize = self.reached.iter().sum();
        let mut line = format!("\n{}: {total} cases", self.what);
        line += &format!("; accepted {}", self.reached[0]);
        for (number, count) in self.reached.iter().enumerate().skip(1) {
            if *count > 0 {
                line += &format!("; refusal {number}: {count}");
            }
        }
        print(&line);

        assert!(total >= cases, "too few cases");
        assert!(self.reached[0] >= 1000, "too few that are accepted");
        for &number in refusals {
            assert!(self.reached[number] >= 100, "too few of {number}");
        }
    }
}

// ---- Many files, counted ----

/// A well-formed graph; every other one is accepted, so that what is read shows.
fn well_formed(g: &mut Generator) -> Graph {
    if g.once_in(2) {
        g.any_accepted_graph()
    } else {
        g.any_graph()
    }
}

#[test]
fn many_graphs() {
    let mut tally = Tally::new("graphs");
    let g = &mut Generator::new(1);

    for length in (0..=900).cycle().take(9010) {
        tally.graph("random bytes", &g.bytes(length));
    }

    for task_count in 2..=64 {
        for edge_count in 0..=256 {
            let graph = g.graph(task_count, edge_count);
            let file = write_graph(&GraphFields::of(&graph));
            tally.graph("well-formed, every size", &file);
        }
        for edge_count in [0, 1, 2, 17, 64, 128, 255, 256] {
            let graph = g.accepted_graph(task_count, edge_count);
            let file = write_graph(&GraphFields::of(&graph));
            tally.graph("accepted, every number of tasks", &file);
        }
    }
    for edge_count in 0..=256 {
        let task_count = g.between(2, 64);
        let graph = g.accepted_graph(task_count, edge_count);
        let file = write_graph(&GraphFields::of(&graph));
        tally.graph("accepted, every number of edges", &file);
    }

    // The header is right and the length too; the rest is random, or nearly.
    for _ in 0..10_000 {
        let graph = well_formed(g);
        let right = write_graph(&GraphFields::of(&graph));
        let kept = g.between(7, right.len());
        let mut file = right.clone();
        let rest = g.bytes(right.len() - kept);
        file[kept..].copy_from_slice(&rest);
        if g.once_in(2) {
            *file.last_mut().unwrap() &= 0xF0;
        }
        tally.graph("random from some byte on", &file);
    }

    for (case, damage) in GRAPH_DAMAGES {
        for _ in 0..4000 {
            let graph = well_formed(g);
            let mut fields = GraphFields::of(&graph);
            damage(g, &mut fields);
            tally.graph(case, &write_graph(&fields));
        }
    }

    for (case, damage) in BYTE_DAMAGES {
        for _ in 0..2000 {
            let graph = well_formed(g);
            let mut file = write_graph(&GraphFields::of(&graph));
            damage(g, &mut file);
            tally.graph(case, &file);
        }
    }

    // Faults that meet: two to four damages of the fields, and now and then one of the bytes.
    for _ in 0..20_000 {
        let graph = well_formed(g);
        let mut fields = GraphFields::of(&graph);
        for _ in 0..g.between(2, 4) {
            GRAPH_DAMAGES[g.between(0, GRAPH_DAMAGES.len() - 1)].1(g, &mut fields);
        }
        let mut file = write_graph(&fields);
        if g.once_in(8) {
            BYTE_DAMAGES[g.between(0, BYTE_DAMAGES.len() - 1)].1(g, &mut file);
        }
        tally.graph("several damages", &file);
    }

    for file in flipped(DESK) {
        tally.graph("example desk, every one or two bits flipped", &file);
    }

    // Every count of edges at many counts of tasks, in files of the length it needs, one byte less, one byte more.
    for task_count in [0, 1, 2, 3, 31, 63, 64, 65, 127] {
        for edge_count in 0..=511 {
            let task = Task {
                processor: 3,
                time: 1,
            };
            let mut fields = GraphFields::of(&g.graph(2, 0));
            (fields.task_count, fields.edge_count) = (task_count, edge_count);
            (fields.input, fields.output) = (0, 0);
            fields.tasks = vec![task; task_count];
            let mut file = write_graph(&fields);
            let needed = bytes_for(56 + 20 * (task_count + edge_count));
            for length in [needed - 1, needed, needed + 1] {
                file.resize(length, 0);
                tally.graph("every count of edges", &file);
            }
        }
    }

    tally.close(50_000, &[1, 2, 3, 4, 5, 6, 7, 8]);
}

#[test]
fn many_proposals() {
    let mut tally = Tally::new("proposals");
    let g = &mut Generator::new(2);
    let desks = Desk::every_size();

    for length in (0..=900).cycle().take(9010) {
        let file = g.bytes(length);
        tally.proposal("random bytes", &file, &desks[g.pick(&TASK_COUNTS)]);
    }

    for (task_count, desk) in desks.iter().enumerate().skip(2) {
        for edge_count in 0..=256 {
            let edges = g.proposal(task_count, edge_count);
            let file = write_proposal(&ProposalFields::of(&edges));
            tally.proposal("well-formed, every size", &file, desk);
        }
        for edge_count in 1..=256 {
            let edges = desk.kept(g, edge_count);
            let file = write_proposal(&ProposalFields::of(&edges));
            tally.proposal("order kept, every size", &file, desk);
        }
    }

    for tasks in TASK_COUNTS {
        for _ in 0..1000 {
            let own = &desks[g.task_count()];
            let edges = own.well_formed(g);
            let file = write_proposal(&ProposalFields::of(&edges));
            tally.proposal("well-formed, another count of tasks", &file, &desks[tasks]);
        }
    }

    for (case, damage) in PROPOSAL_DAMAGES {
        for _ in 0..4000 {
            let tasks = g.task_count();
            let mut fields = ProposalFields::of(&desks[tasks].well_formed(g));
            damage(g, &mut fields, tasks);
            tally.proposal(case, &write_proposal(&fields), &desks[tasks]);
        }
    }

    for (case, damage) in BYTE_DAMAGES {
        for _ in 0..2000 {
            let desk = &desks[g.task_count()];
            let mut file = write_proposal(&ProposalFields::of(&desk.well_formed(g)));
            damage(g, &mut file);
            tally.proposal(case, &file, desk);
        }
    }

    // Faults that meet, and now and then a number of tasks that the proposal was not made for.
    for _ in 0..20_000 {
        let tasks = g.task_count();
        let mut fields = ProposalFields::of(&desks[tasks].well_formed(g));
        for _ in 0..g.between(2, 4) {
            PROPOSAL_DAMAGES[g.between(0, PROPOSAL_DAMAGES.len() - 1)].1(g, &mut fields, tasks);
        }
        let mut file = write_proposal(&fields);
        if g.once_in(8) {
            BYTE_DAMAGES[g.between(0, BYTE_DAMAGES.len() - 1)].1(g, &mut file);
        }
        let tasks = if g.once_in(8) {
            g.pick(&TASK_COUNTS)
        } else {
            tasks
        };
        tally.proposal("several damages", &file, &desks[tasks]);
    }

    for file in flipped(PROPOSAL) {
        for tasks in TASK_COUNTS {
            let case = "example proposal, every one or two bits flipped";
            tally.proposal(case, &file, &desks[tasks]);
        }
    }

    // Every count of edges, in files of the length it needs, one byte less, one byte more.
    for edge_count in 0..=511 {
        let mut fields = ProposalFields::of(&[]);
        fields.edge_count = edge_count;
        let mut file = write_proposal(&fields);
        let needed = bytes_for(16 + 20 * edge_count);
        for length in [needed - 1, needed, needed + 1] {
            file.resize(length, 0);
            for tasks in TASK_COUNTS {
                tally.proposal("every count of edges", &file, &desks[tasks]);
            }
        }
    }

    tally.close(50_000, &[1, 2, 3, 4, 6, 8]);
}

// ---- Named files, with the answers of document 01 ----

/// The small graph with a change.
fn changed(change: impl Fn(&mut GraphFields)) -> Vec<u8> {
    let mut fields = small();
    change(&mut fields);
    write_graph(&fields)
}

/// As many tasks as wanted, each of time 1, and as many edges as wanted, no two equal. Task v is on processor v mod 16; all are on one
/// if there is no edge. It is accepted if its counts are within bounds.
fn large(task_count: usize, edge_count: usize) -> GraphFields {
    let tasks = (0..task_count).map(|v| Task {
        processor: if edge_count == 0 { 9 } else { v % 16 },
        time: 1,
    });
    // There and back: 0, 1, 2 and so on there, and one more back.
    let edges = (0..edge_count).map(|e| edge(e % 2, 1 - e % 2, (e + 1) / 2));
    GraphFields::of(&Graph {
        tasks: tasks.collect(),
        edges: edges.collect(),
        input: 0,
        output: 1,
        bound: 2,
    })
}

/// Tasks 0, 2, 4 and 5 on one processor, 1 and 3 on others; one edge, from 4 to 3.
#[test]
fn processor_edges_of_mixed_processors() {
    let file = changed(|f| {
        let processors = [9, 15, 9, 0, 9, 9];
        for (task, processor) in f.tasks.iter_mut().zip(processors) {
            task.processor = processor;
        }
        f.edges = vec![edge(4, 3, 200)];
        f.edge_count = 1;
        f.output = 5;
    });
    let read = compare_graph("mixed processors", &file);
    assert_eq!(read.figures.refusal, refusal(0, 0));
    let none = 65_535;
    let table = [
        [1, none, 0, 200, 0, 0],
        [none, 1, none, none, none, none],
        [1, none, 1, 200, 0, 0],
        [none, none, none, 1, none, none],
        [1, none, 1, 200, 1, 0],
        [1, none, 1, 201, 1, 1],
    ];
    assert_eq!(read.table, table.concat());
    assert_eq!(read.starts, [0, 0, 5, 0, 7, 10, 14, 1, 19, 7, 21, 24]);
}

#[test]
fn bounds_of_graphs() {
    // Counts.
    for (tasks, edges, number) in [
        (64, 256, 0),
        (65, 256, 3),
        (64, 257, 3),
        (64, 0, 0),
        (65, 0, 3),
        (127, 0, 3),
        (2, 0, 0),
        (2, 256, 0),
        (2, 257, 3),
        (2, 511, 3),
        (1, 0, 3),
        (0, 0, 3),
        (127, 511, 3),
    ] {
        let case = format!("{tasks} tasks, {edges} edges");
        let file = write_graph(&large(tasks, edges));
        graph_gets(&case, &file, number, 0);
        if number == 0 {
            graph_gets(&case, &file[..file.len() - 1], 1, 0);
            graph_gets(&case, &[&file[..], &[0]].concat(), 4, 0);
            let thousands = [&file[..], &[0; 7000]].concat();
            graph_gets(&case, &thousands, 4, 0);
        }
    }
    assert_eq!(write_graph(&large(64, 256)).len(), 807);
    let file = changed(|f| f.edge_count = 511);
    graph_gets("511 edges in a short file", &file, 3, 0);
    let file = changed(|f| f.edge_count = 256);
    graph_gets("256 edges in a short file", &file, 1, 0);

    // Lengths.
    graph_gets("empty", &[], 1, 0);
    for byte in 0..=255 {
        graph_gets("one byte", &[byte], 1, 0);
    }
    graph_gets("header but for a byte", &DESK[..6], 1, 0);
    graph_gets("header alone", &DESK[..7], 1, 0);
    graph_gets("2^20 bytes of ones", &vec![255; 1 << 20], 2, 0);
    graph_gets("2^20 zero bytes", &vec![0; 1 << 20], 2, 0);
    let mut file = write_graph(&large(64, 256));
    file.resize(1 << 20, 0);
    graph_gets("2^20 bytes, largest counts", &file, 4, 0);

    // Versions.
    for version in 0..32 {
        let file = changed(|f| f.version = version);
        graph_gets("version", &file, if version == 1 { 0 } else { 2 }, 0);
    }

    // Filling.
    graph_gets("filled with zeros", &changed(|_| ()), 0, 0);
    for filling in 1..16 {
        graph_gets("filling", &changed(|f| f.filling = filling), 4, 0);
    }

    // Header numbers. Task 5 waits for task 4, and 63 for 47; so they are no inputs, but task numbers.
    graph_gets("input last", &changed(|f| f.input = 5), 10, 0);
    graph_gets("input past", &changed(|f| f.input = 6), 6, 0);
    graph_gets("output last", &changed(|f| f.output = 5), 11, 0);
    graph_gets("output past", &changed(|f| f.output = 6), 6, 0);
    graph_gets("output far", &changed(|f| f.output = 63), 6, 0);
    let mut fields = large(64, 1);
    (fields.input, fields.output, fields.bound) = (15, 63, 4);
    graph_gets("output 63 of 64", &write_graph(&fields), 0, 0);
    fields.input = 63;
    graph_gets("both 63 of 64", &write_graph(&fields), 10, 0);
    fields.task_count = 63;
    fields.tasks.pop();
    graph_gets("both 63 of 63", &write_graph(&fields), 6, 0);
    (fields.input, fields.output) = (14, 62);
    graph_gets("output 62 of 63", &write_graph(&fields), 0, 0);

    // Bounds. Of feedback edges alone no order can be lost, so no edge need be proposed, and the margin tells the bound.
    for bound in [14, 15, 1 << 22, LARGEST_BOUND] {
        let file = changed(|f| {
            f.bound = bound;
            f.edges = vec![edge(4, 5, 0), edge(5, 4, 1)];
            f.edge_count = 2;
            f.output = 1;
        });
        let read = compare_graph("bound", &file);
        assert_eq!(read.figures.latency, 6);
        assert_eq!(read.verdict.margin, bound as i32 - 6);
    }
    graph_gets("bound 14", &changed(|f| f.bound = 14), 0, 0);
    graph_gets("bound 13", &changed(|f| f.bound = 13), 12, 0);
    graph_gets("bound 0", &changed(|f| f.bound = 0), 12, 0);

    // Times.
    for task in 0..6 {
        graph_gets("time 0", &changed(|f| f.tasks[task].time = 0), 5, task);
        graph_gets("time 1", &changed(|f| f.tasks[task].time = 1), 0, 0);
        let file = changed(|f| {
            f.tasks[task].time = 65_535;
            f.bound = LARGEST_BOUND;
        });
        let starts = compare_graph("longest time", &file).starts;
        // Its turns follow one another, and what must run in between takes 7 at most.
        let turn = starts[6 + task] - starts[task];
        assert!((65_535..=65_542).contains(&turn), "{turn}");
    }
    let mut fields = large(64, 256);
    fields.tasks[63].time = 0;
    graph_gets("time 0 of the last task", &write_graph(&fields), 5, 63);
    let file = changed(|f| (f.tasks[4].time, f.tasks[2].time) = (0, 0));
    graph_gets("two times 0", &file, 5, 2);

    // Edges.
    for at in 0..7 {
        let place = at + 1;
        for end in [6, 7, 63] {
            graph_gets("source", &changed(|f| f.edges[at].source = end), 6, place);
            graph_gets("sink", &changed(|f| f.edges[at].sink = end), 6, place);
        }
        let file = changed(|f| f.edges[at] = edge(63, 63, 0));
        graph_gets("out of range, and to itself", &file, 6, place);
        for delay in [0, 1, 255] {
            let file = changed(|f| f.edges[at] = edge(4, 4, delay));
            graph_gets("to itself", &file, 7, place);
            let file = changed(|f| f.edges[at] = edge(3, 2, delay));
            graph_gets("back on its processor", &file, 7, place);
            let file = changed(|f| f.edges[at] = edge(0, 1, delay));
            graph_gets("on along its processor", &file, 7, place);
        }
    }
    let mut fields = large(63, 256);
    fields.edges[255].sink = 63;
    graph_gets("256th edge out of range", &write_graph(&fields), 6, 256);
    fields.edges[255].sink = fields.edges[255].source;
    graph_gets("256th edge to itself", &write_graph(&fields), 7, 256);
    fields.edges[255] = fields.edges[0];
    graph_gets("256th edge as the first", &write_graph(&fields), 8, 256);
    fields.edges[255] = fields.edges[254];
    graph_gets("256th edge as the 255th", &write_graph(&fields), 8, 256);

    // Equal edges. The processor edge from 0 to 1 joins input and output.
    let with = |edges: &[Edge]| {
        changed(|f| {
            f.edges = edges.to_vec();
            f.edge_count = edges.len();
            f.output = 1;
        })
    };
    let (a, b) = (edge(0, 2, 7), edge(1, 2, 7));
    graph_gets("a a", &with(&[a, a]), 8, 2);
    graph_gets("a a a", &with(&[a, a, a]), 8, 2);
    graph_gets("a b a", &with(&[a, b, a]), 8, 3);
    graph_gets("a b b a", &with(&[a, b, b, a]), 8, 3);
    graph_gets("a b a b", &with(&[a, b, a, b]), 8, 3);
    graph_gets("other delay", &with(&[a, edge(0, 2, 6)]), 0, 0);
    graph_gets("other sink", &with(&[a, edge(0, 3, 7)]), 0, 0);
    graph_gets("other source", &with(&[a, b]), 0, 0);
    graph_gets("turned round", &with(&[a, edge(2, 0, 7)]), 0, 0);
}

#[test]
fn bounds_of_proposals() {
    let of = |edges: &[Edge]| write_proposal(&ProposalFields::of(edges));
    // All 256 from 0 to 1, which are accepted, and then some back.
    let many: Vec<Edge> = (0..511)
        .map(|e| edge(e / 256, 1 - e / 256, e % 256))
        .collect();
    assert_eq!(of(&many[..256]).len(), 642);

    for tasks in TASK_COUNTS {
        let desk = Desk::new(tasks);
        let gets = |case: &str, file: &[u8], number: usize, place: usize| {
            desk.gets(case, file, number, place);
        };

        // The same for every number of tasks.
        gets("empty", &[], 1, 0);
        for byte in 0..=255 {
            gets("one byte", &[byte], 1, 0);
        }
        gets("2^20 bytes of ones", &vec![255; 1 << 20], 2, 0);
        gets("2^20 zero bytes", &vec![0; 1 << 20], 2, 0);
        let mut file = of(&many[..256]);
        file.resize(1 << 20, 0);
        gets("2^20 bytes, largest count", &file, 4, 0);
        gets("256 edges", &of(&many[..256]), 0, 0);
        gets("257 edges", &of(&many[..257]), 3, 0);
        gets("511 edges", &of(&many), 3, 0);
        gets("511 edges in a short file", &of(&many)[..9], 3, 0);
        gets("256 edges in a short file", &of(&many[..256])[..9], 1, 0);
        for edges in [0, 1, 2, 255, 256] {
            let file = of(&many[..edges]);
            gets("one byte short", &file[..file.len() - 1], 1, 0);
            gets("one byte long", &[&file[..], &[0]].concat(), 4, 0);
            gets("thousands long", &[&file[..], &[0; 7000]].concat(), 4, 0);
            for two_zero_bits in 1..4 {
                let mut fields = ProposalFields::of(&many[..edges]);
                fields.two_zero_bits = two_zero_bits;
                gets("two zero bits", &write_proposal(&fields), 4, 0);
            }
        }
        for filling in 1..16 {
            let mut fields = ProposalFields::of(&many[..3]);
            fields.filling = filling;
            gets("filling", &write_proposal(&fields), 4, 0);
        }
        for version in 0..32 {
            let mut fields = ProposalFields::of(&many[..2]);
            fields.version = version;
            let number = if version == 1 { 0 } else { 2 };
            gets("version", &write_proposal(&fields), number, 0);
        }

        // Well-formed, but the order of 0 and 1 is lost.
        gets("no edge", &NOTHING, 14, 1);
        gets("no delay 0", &of(&many[1..256]), 14, 1);

        // Refusal 6 if there are too few tasks, else as given.
        let needs =
            |enough: usize, case: &str, edges: &[Edge], at: usize, number: usize, place: usize| {
                if tasks < enough {
                    gets(case, &of(edges), 6, at);
                } else {
                    gets(case, &of(edges), number, place);
                }
            };
        let first = many[0];
        for last in [0, 1, 2, 3, 4, 15, 16, 31, 32, 61, 62, 63] {
            let to_itself = [edge(last, last, 3)];
            needs(last + 1, "last to itself", &to_itself, 1, 13, 1);
            if last > 1 {
                let source = [first, edge(last, 1, 3)];
                needs(last + 1, "last as source", &source, 2, 0, 0);
                let sink = [first, edge(0, last, 3)];
                needs(last + 1, "last as sink", &sink, 2, 0, 0);
            }
        }
        let (a, b) = (first, many[8]);
        gets("a b", &of(&[a, b]), 0, 0);
        gets("a a", &of(&[a, a]), 8, 2);
        gets("a a a", &of(&[a, a, a]), 8, 2);
        gets("a b b a", &of(&[a, b, b, a]), 8, 3);
        gets("a b a b", &of(&[a, b, a, b]), 8, 3);
        needs(64, "a a, then 63", &[a, a, edge(0, 63, 0)], 3, 8, 2);
        let mut edges = many[..256].to_vec();
        edges[255] = edges[0];
        gets("256th edge as the first", &of(&edges), 8, 256);
    }
}

/// Task 2 exists from 3 tasks on. The proposed edge loses the desks' only order, of 0 and 1.
#[test]
fn example_proposal() {
    for desk in &Desk::every_size()[3..] {
        desk.gets("example proposal", &PROPOSAL, 14, 1);
    }
    Desk::new(2).gets("example proposal", &PROPOSAL, 6, 1);
}

// ---- The sequence of refusals ----

#[test]
fn sequence_of_graph_refusals() {
    let mut right = small();
    right.edges.extend([edge(3, 4, 3), edge(4, 3, 3)]);
    right.edge_count = 9;
    let faults: [Fault<GraphFields>; 16] = [
        ("no header", (1, 0), |_| (), |b| b.truncate(6)),
        ("version", (2, 0), |f| f.version = 3, |_| ()),
        ("tasks", (3, 0), |f| f.task_count = 1, |_| ()),
        ("edges", (3, 0), |f| f.edge_count = 257, |_| ()),
        ("short", (1, 0), |_| (), |b| b.truncate(b.len() - 1)),
        ("long", (4, 0), |_| (), |b| b.extend([0; 2])),
        ("filling", (4, 0), |f| f.filling = 2, |_| ()),
        ("input", (6, 0), |f| f.input = 6, |_| ()),
        ("task 1", (5, 1), |f| f.tasks[1].time = 0, |_| ()),
        ("task 3", (5, 3), |f| f.tasks[3].time = 0, |_| ()),
        ("edge 1", (7, 1), |f| f.edges[0].sink = 1, |_| ()),
        ("edge 2", (6, 2), |f| f.edges[1].source = 6, |_| ()),
        ("edge 3", (7, 3), |f| f.edges[2].sink = 4, |_| ()),
        ("edge 4", (6, 4), |f| f.edges[3].sink = 40, |_| ()),
        ("edge 7 as 6", (8, 7), |f| f.edges[6] = f.edges[5], |_| ()),
        ("edge 8 as 5", (8, 8), |f| f.edges[7] = f.edges[4], |_| ()),
    ];
    for faulty in every_set_of_faults(&right, &faults, write_graph) {
        let (number, place) = faulty.first();
        graph_gets(&faulty.name, &faulty.file, number, place);
    }

    // Equal edges before an edge at fault.
    let mut fields = small();
    fields.edges[1] = fields.edges[0];
    fields.edges[5].sink = 6;
    graph_gets("8 at 2, 6 at 6", &write_graph(&fields), 6, 6);
    fields.edges[5].sink = 3;
    graph_gets("8 at 2, 7 at 6", &write_graph(&fields), 7, 6);
    fields.edges[5].sink = 1;
    graph_gets("8 at 2", &write_graph(&fields), 8, 2);
}

#[test]
fn sequence_of_proposal_refusals() {
    let right = ProposalFields::of(&[
        edge(0, 1, 0),
        edge(0, 2, 0),
        edge(2, 3, 1),
        edge(3, 4, 2),
        edge(4, 1, 255),
    ]);
    let faults: [Fault<ProposalFields>; 11] = [
        ("no header", (1, 0), |_| (), |b| b.truncate(1)),
        ("version", (2, 0), |f| f.version = 17, |_| ()),
        ("edges", (3, 0), |f| f.edge_count = 257, |_| ()),
        ("short", (1, 0), |_| (), |b| b.truncate(b.len() - 1)),
        ("long", (4, 0), |_| (), |b| b.extend([0; 2])),
        ("zero bits", (4, 0), |f| f.two_zero_bits = 2, |_| ()),
        ("filling", (4, 0), |f| f.filling = 8, |_| ()),
        ("edge 2", (6, 2), |f| f.edges[1].sink = 5, |_| ()),
        ("edge 5", (6, 5), |f| f.edges[4].source = 63, |_| ()),
        ("edge 3 as 1", (8, 3), |f| f.edges[2] = f.edges[0], |_| ()),
        ("edge 4 as 1", (8, 4), |f| f.edges[3] = f.edges[0], |_| ()),
    ];
    let desk = Desk::new(5);
    for faulty in every_set_of_faults(&right, &faults, write_proposal) {
        let (number, place) = faulty.first();
        desk.gets(&faulty.name, &faulty.file, number, place);
    }
}
