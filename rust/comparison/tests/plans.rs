//! The proved plan against the independent planner, whole answers and whole lent lists with the memory beside them, and both against
//! numbers of document 01. Every plan is also judged as a proposal by both sides, and those for small graphs are held against runs.
//!
//! Everything is seeded: a run has the same cases as any other.

use checker::files::{write_graph, write_proposal};
use checker::files::{Edge, Graph, GraphFields, ProposalFields, Task};
use checker::plans::{self, Plan};
use checker::proposals::{self, Verdict};
use checker::schedule;
use comparison::expected::{self, records, refusal, Judged};
use comparison::generator::damage::{BYTE_DAMAGES, GRAPH_DAMAGES};
use comparison::generator::desk::{edge, flipped, print, shown, small, DESK, PROPOSAL};
use comparison::generator::desks::{FAULTS, LARGEST_BOUND};
use comparison::generator::faults::{every_set_of_faults, Fault};
use comparison::generator::lists::{lend, lent, no_edge, BESIDE};
use comparison::generator::proposals::cut_delays;
use comparison::generator::trials::{hold_against_runs, Tried};
use comparison::generator::Generator;
use resync::raw::{self as proved, PlanAnswer, Refusal, VerdictAnswer};
use std::collections::BTreeMap;

// ---- Comparing ----

/// A graph file, and what the checker makes of it.
struct Case<'a> {
    name: &'a str,
    file: Vec<u8>,
    graph: Judged,
    /// None if the graph is refused.
    plan: Option<Plan>,
}

impl Case<'_> {
    fn new<'a>(name: &'a str, file: &[u8]) -> Case<'a> {
        let graph = schedule::accept_graph(file);
        Case {
            name,
            file: file.to_vec(),
            plan: graph.as_ref().ok().map(plans::plan),
            graph,
        }
    }

    fn of<'a>(name: &'a str, graph: &Graph) -> Case<'a> {
        Case::new(name, &write_graph(&GraphFields::of(graph)))
    }

    /// The checker's plan. Only if the graph is accepted.
    fn plan(&self) -> &Plan {
        self.plan.as_ref().expect("accepted")
    }

    /// Lends a list of so many records: both sides must have the same answer and list, and nothing else of what is lent may change.
    fn compare(&self, room: usize) -> PlanAnswer {
        let refusal = expected::plan_refusal(&self.graph, room);
        let (expected, written) = match &self.plan {
            Some(plan) if refusal.number == 0 => (expected::plan(plan), records(&plan.edges)),
            _ => (refused(refusal), Vec::new()),
        };

        let memory = [&[0xA5; 16], &self.file[..], &[0xA5; 16]].concat();
        let before = memory.clone();
        let file = &memory[16..16 + self.file.len()];
        let (proved, list) = lend(room, no_edge, |list| proved::plan(file, list));
        assert!(
            proved == expected,
            "{}, list of {room}\nproved: {proved:?}\nchecker: {expected:?}\n{}",
            self.name,
            shown(&self.file)
        );
        let expected = lent(room, no_edge, &written);
        if let Some(at) = (0..expected.len()).find(|&at| list[at] != expected[at]) {
            panic!(
                "{}, list of {room}\nrecord {} (of the list from 0)\nproved: {:?}\nchecker: {:?}\n{}",
                self.name,
                at as isize - BESIDE as isize,
                list[at],
                expected[at],
                shown(&self.file)
            );
        }
        assert!(memory == before, "{}: the file changed", self.name);

        // "Every call that takes a graph runs its checks up to 12"; then comes 16.
        let figures = proved::figures(file).refusal;
        match proved.refusal.number {
            16 => assert_eq!(figures.number, 0, "{}", self.name),
            _ => assert_eq!(figures, proved.refusal, "{}", self.name),
        }
        proved
    }

    /// The plan as a proposal: accepted by both sides, with the plan's latency. Only if the graph is accepted.
    fn judge(&self) -> VerdictAnswer {
        let (graph, plan) = (self.graph.as_ref().expect("accepted"), self.plan());
        let margin = graph.bound as isize - plan.latency as isize;
        let proposal = write_proposal(&ProposalFields::of(&plan.edges));
        let accepted = Verdict::Accepted {
            latency: plan.latency,
            margin,
        };
        let verdict = proposals::verdict(&self.file, &proposal);
        assert_eq!(verdict, accepted, "{}\n{}", self.name, shown(&self.file));
        let accepted = VerdictAnswer {
            refusal: refusal(0, 0),
            latency: plan.latency as u32,
            margin: margin as i32,
        };
        let verdict = proved::verdict(&self.file, &proposal);
        assert_eq!(verdict, accepted, "{}\n{}", self.name, shown(&self.file));
        verdict
    }
}

/// An answer with this refusal, and everything else 0.
fn refused(refusal: Refusal) -> PlanAnswer {
    PlanAnswer {
        refusal,
        ..Default::default()
    }
}

/// The graph with another bound.
fn bounded(graph: &Graph, bound: usize) -> Graph {
    let mut graph = graph.clone();
    graph.bound = bound;
    graph
}

/// How often plans were made and refused.
struct Tally {
    what: &'static str,
    /// Calls by the number they give, 0 for a plan.
    calls: [usize; 17],
    /// Graphs planned by the number of steps.
    steps: BTreeMap<usize, usize>,
    /// Steps at which candidates tie.
    tied: usize,
    /// Steps that drop an edge that an earlier one added.
    dropping_added: usize,
    /// Graphs planned that have feedback edges and feedforward edges.
    mixed: usize,
    /// Feedforward edges of all graphs planned, and of their plans.
    feedforward: usize,
    planned: usize,
}

impl Tally {
    fn new(what: &'static str) -> Tally {
        Tally {
            what,
            calls: [0; 17],
            steps: BTreeMap::new(),
            tied: 0,
            dropping_added: 0,
            mixed: 0,
            feedforward: 0,
            planned: 0,
        }
    }

    fn compare(&mut self, case: &Case, room: usize) {
        let answer = case.compare(room);
        self.calls[answer.refusal.number as usize] += 1;
    }

    /// Lists just long enough and of another length. A plan is judged too.
    fn every_call(&mut self, g: &mut Generator, case: &Case) {
        let needed = match &case.graph {
            Ok(graph) => graph.edges.len(),
            Err(_) => g.between(0, 256),
        };
        let more = needed + g.between(1, 9);
        let other = g.pick(&[0, needed.saturating_sub(1), more]);
        self.compare(case, needed);
        self.compare(case, other);
        if let Ok(graph) = &case.graph {
            case.judge();
            self.count(graph, case.plan());
        }
    }

    fn count(&mut self, graph: &Graph, plan: &Plan) {
        *self.steps.entry(plan.steps.len()).or_default() += 1;
        self.tied += plan.steps.iter().filter(|step| step.ties > 0).count();
        for (at, step) in plan.steps.iter().enumerate() {
            let added_before = plan.steps[..at].iter().map(|before| before.added);
            let dropped = added_before.filter(|added| step.dropped.contains(added));
            self.dropping_added += usize::from(dropped.count() > 0);
        }
        let feedforward = proposals::feedforward_edges(graph).len();
        assert!(plan.edges.len() <= feedforward, "more edges than before");
        self.mixed += usize::from(0 < feedforward && feedforward < graph.edges.len());
        self.feedforward += feedforward;
        self.planned += plan.edges.len();
    }

    /// Graphs planned in so many steps or more.
    fn with_steps(&self, least: usize) -> usize {
        self.steps.range(least..).map(|(_, count)| count).sum()
    }

    /// Prints the counts and asserts that there are enough: so many graphs planned in so many steps or more, and a hundred calls
    /// for every refusal named.
    fn close(&self, planned: &[(usize, usize)], refusals: &[usize]) {
        let total: usize = self.calls.iter().sum();
        let mut lines = format!("\n{}: {total} calls; plans {}", self.what, self.calls[0]);
        for (number, count) in self.calls.iter().enumerate().skip(1) {
            if *count > 0 {
                lines += &format!("; refusal {number}: {count}");
            }
        }
        if self.with_steps(0) > 0 {
            lines += &format!(
                "\n  {} graphs planned, {} of them with feedback edges too; {} feedforward edges became {}\n",
                self.with_steps(0),
                self.mixed,
                self.feedforward,
                self.planned
            );
            lines += &format!(
                "  graphs by steps {:?}; {} steps with ties, {} that drop an added edge",
                self.steps, self.tied, self.dropping_added
            );
        }
        print(&lines);
        for &(steps, count) in planned {
            let enough = self.with_steps(steps) >= count;
            assert!(enough, "{}: too few with {steps} steps", self.what);
        }
        for &number in refusals {
            let enough = self.calls[number] >= 100;
            assert!(enough, "{}: too few of {number}", self.what);
        }
    }
}

/// The graph at the bounds where its plan changes, from the largest down, at most so many; at its latency, and now and then below.
fn at_bounds(g: &mut Generator, tally: &mut Tally, name: &str, graph: &Graph, most: usize) {
    let latency = schedule::latency(graph);
    let mut bound = LARGEST_BOUND;
    for _ in 0..most {
        let case = Case::of(name, &bounded(graph, bound));
        tally.every_call(g, &case);
        let plan = case.plan();
        // Nothing that was taken would be late.
        if g.once_in(8) {
            let just = Case::of(name, &bounded(graph, plan.latency));
            tally.every_call(g, &just);
            assert_eq!(just.plan().edges, plan.edges, "{name}");
            assert_eq!(just.plan().steps.len(), plan.steps.len(), "{name}");
        }
        bound = plan.latency - 1;
        if bound < latency {
            break;
        }
    }
    if bound >= latency {
        tally.every_call(g, &Case::of(name, &bounded(graph, latency)));
    }
    if g.once_in(8) {
        tally.every_call(g, &Case::of(name, &bounded(graph, latency - 1)));
    }
}

// ---- Many graphs, counted ----

#[test]
fn many_small_graphs() {
    let mut tally = Tally::new("small graphs");
    let g = &mut Generator::new(31);
    for _ in 0..2500 {
        let task_count = g.between(2, 12);
        let edge_count = g.between(0, 24);
        let graph = g.staged_graph(task_count, edge_count);
        at_bounds(g, &mut tally, "staged", &graph, 6);
    }
    for _ in 0..2500 {
        let task_count = g.between(2, 12);
        let edge_count = g.between(0, 24);
        let graph = g.graph_to_plan(task_count, edge_count);
        at_bounds(g, &mut tally, "forward", &graph, 6);
    }
    for _ in 0..1000 {
        let task_count = g.between(6, 12);
        let edge_count = g.between(16, 48);
        let graph = g.graph_to_plan(task_count, edge_count);
        at_bounds(g, &mut tally, "dense", &graph, 6);
    }
    for _ in 0..1500 {
        let task_count = g.between(2, 12);
        let edge_count = g.between(0, 24);
        let mut graph = g.accepted_graph(task_count, edge_count);
        g.tune_delays(&mut graph);
        tally.every_call(g, &Case::of("delays tuned", &graph));
    }
    tally.close(&[(0, 10_000), (1, 4000), (3, 800), (5, 100)], &[12, 16]);
    assert!(tally.tied >= 1000 && tally.dropping_added >= 50);
    assert!(tally.mixed >= 1000);
}

#[test]
fn graphs_of_any_size() {
    let mut tally = Tally::new("graphs of any size");
    let g = &mut Generator::new(32);
    for _ in 0..100 {
        let (task_count, edge_count) = (g.between(2, 64), g.between(0, 256));
        let staged = g.staged_graph(task_count, edge_count);
        let forward = g.graph_to_plan(task_count, edge_count);
        at_bounds(g, &mut tally, "staged, any size", &staged, 2);
        at_bounds(g, &mut tally, "forward, any size", &forward, 2);
    }
    tally.close(&[(0, 400), (1, 200), (3, 100), (6, 20)], &[]);
}

#[test]
fn largest_desks() {
    let mut tally = Tally::new("largest desks");
    let g = &mut Generator::new(33);
    let largest = |graph: &Graph| (graph.tasks.len(), graph.edges.len()) == (64, 256);
    for processors in [16, 16, 16, 16, 12, 8, 4, 2] {
        // Not every choice of its edges has so many.
        let graph = loop {
            let graph = g.graph_to_plan_on(processors, 64, 256);
            if largest(&graph) {
                break graph;
            }
        };
        at_bounds(g, &mut tally, "forward, largest", &graph, 2);
    }
    for _ in 0..4 {
        let graph = g.staged_graph(64, 256);
        at_bounds(g, &mut tally, "staged, largest", &graph, 2);
    }
    for chains in 2..10 {
        let graph = g.chains(chains, 256);
        let case = Case::of("chains", &graph);
        tally.every_call(g, &case);
        let steps = chains * (chains + 1) / 2;
        assert_eq!(case.plan().steps.len(), steps, "{chains} chains");
    }
    let chains = g.chains(15, 256);
    assert!(largest(&chains));
    let case = Case::of("most chains", &chains);
    tally.every_call(g, &case);
    assert_eq!(case.plan().steps.len(), 120);
    assert_eq!(case.plan().edges.len(), 120);

    // Every edge on a cycle: nothing to plan.
    let ring: Vec<Edge> = (0..256)
        .map(|e| edge(e % 64, (e + 1) % 64, e / 64))
        .collect();
    let mut ring = Graph {
        tasks: (0..64)
            .map(|v| Task {
                processor: v % 16,
                time: 65_535,
            })
            .collect(),
        edges: ring,
        input: 0,
        output: 63,
        bound: LARGEST_BOUND,
    };
    ring.edges[63].delay = 4;
    let case = Case::of("ring", &ring);
    tally.every_call(g, &case);
    assert_eq!(case.plan().edges, []);
    assert_eq!(case.plan().latency, 64 * 65_535);
    tally.close(&[(0, 30), (1, 20), (6, 10), (45, 2), (120, 1)], &[]);
}

#[test]
fn candidates_that_tie() {
    let mut tally = Tally::new("candidates that tie");
    let g = &mut Generator::new(34);
    for _ in 0..1500 {
        let graph = g.graph_of_copies();
        at_bounds(g, &mut tally, "copies", &graph, 3);
    }
    tally.close(&[(0, 1800), (2, 500), (3, 300), (6, 50)], &[12]);
    assert!(tally.tied >= 1500, "too few ties");
}

/// What a plan leads to, as a graph of its own: nothing is left to plan.
#[test]
fn plans_of_results() {
    let mut tally = Tally::new("results of plans");
    let g = &mut Generator::new(35);
    for _ in 0..2000 {
        let task_count = g.between(4, 12);
        let edge_count = g.between(4, 24);
        let mut graph = g.graph_to_plan(task_count, edge_count);
        g.set_bound(&mut graph);
        let plan = plans::plan(&graph);
        let mut result = proposals::result(&graph, &plan.edges);
        g.shuffle(&mut result.edges);
        let case = Case::of("result", &result);
        tally.every_call(g, &case);
        // With the plan the input may have to wait, in a graph it may not.
        match &case.graph {
            Err(refusal) => assert_eq!(refusal.number, 10),
            Ok(_) => {
                let again = case.plan();
                assert_eq!((again.steps.len(), again.latency), (0, plan.latency));
                assert_eq!(again.edges, proposals::feedforward_edges(&result));
                assert_eq!(again.edges.len(), plan.edges.len());
            }
        }
    }
    tally.close(&[(0, 1000)], &[10]);
}

#[test]
fn plans_agree_with_runs() {
    let mut tally = Tally::new("graphs that are run");
    let mut tried = Tried::default();
    let g = &mut Generator::new(36);
    for round in 0..3000 {
        let mut graph = if round % 3 == 0 {
            g.graph_to_run()
        } else {
            let (task_count, edge_count) = (g.between(4, 8), g.between(2, 14));
            cut_delays(g.graph_to_plan(task_count, edge_count))
        };
        g.set_bound(&mut graph);
        let case = Case::of("run", &graph);
        tally.every_call(g, &case);
        let verdict = case.judge();
        hold_against_runs(g, &mut tried, &graph, &case.plan().edges, &verdict);
    }
    tally.close(&[(0, 3000), (1, 500), (2, 100)], &[]);
    tried.print();
}

#[test]
fn many_damaged_files() {
    let mut tally = Tally::new("damaged files");
    let g = &mut Generator::new(37);
    let any_graph = |g: &mut Generator| {
        let task_count = g.between(2, 12);
        let edge_count = g.between(0, 24);
        let mut graph = g.graph_to_plan(task_count, edge_count);
        graph.bound = schedule::latency(&graph) + g.between(0, 9);
        graph
    };

    for length in 0..=900 {
        let file = g.bytes(length);
        tally.every_call(g, &Case::new("random bytes", &file));
    }
    for (name, damage) in GRAPH_DAMAGES {
        for _ in 0..500 {
            let mut fields = GraphFields::of(&any_graph(g));
            damage(g, &mut fields);
            tally.every_call(g, &Case::new(name, &write_graph(&fields)));
        }
    }
    for (name, spoil) in FAULTS {
        for _ in 0..300 {
            let mut graph = any_graph(g);
            spoil(g, &mut graph);
            tally.every_call(g, &Case::of(name, &graph));
        }
    }
    for (name, damage) in BYTE_DAMAGES {
        for _ in 0..500 {
            let mut file = write_graph(&GraphFields::of(&any_graph(g)));
            damage(g, &mut file);
            tally.every_call(g, &Case::new(name, &file));
        }
    }
    // Faults that meet.
    for _ in 0..5000 {
        let mut graph = any_graph(g);
        for _ in 0..g.between(0, 2) {
            FAULTS[g.between(0, FAULTS.len() - 1)].1(g, &mut graph);
        }
        let mut fields = GraphFields::of(&graph);
        for _ in 0..g.between(0, 2) {
            GRAPH_DAMAGES[g.between(0, GRAPH_DAMAGES.len() - 1)].1(g, &mut fields);
        }
        let mut file = write_graph(&fields);
        if g.once_in(8) {
            BYTE_DAMAGES[g.between(0, BYTE_DAMAGES.len() - 1)].1(g, &mut file);
        }
        tally.every_call(g, &Case::new("several damages", &file));
    }
    for file in flipped(DESK) {
        let name = "example desk, every one or two bits flipped";
        tally.every_call(g, &Case::new(name, &file));
    }
    let every = [1, 2, 3, 4, 5, 6, 7, 8, 9, 10, 11, 12, 16];
    tally.close(&[(0, 5000), (1, 1000)], &every);
}

// ---- Lists ----

#[test]
fn every_length_of_list() {
    let mut tally = Tally::new("every length of list");
    let g = &mut Generator::new(38);
    let mut graphs = vec![
        schedule::accept_graph(&DESK).expect("accepted"),
        g.chains(3, 9 + 3),
        g.chains(3, 100),
        g.graph_to_plan_on(16, 64, 256),
    ];
    for _ in 0..60 {
        let edge_count = g.between(0, 24);
        graphs.push(g.graph_to_plan(12, edge_count));
        graphs.push(g.accepted_graph(5, 0));
    }
    for graph in &graphs {
        let case = Case::of("every length of list", graph);
        tally.count(graph, case.plan());
        for room in 0..=graph.edges.len() + 2 {
            tally.compare(&case, room);
        }
        tally.compare(&case, 70_000);
        // Refused for the graph, whatever the list.
        let low = schedule::latency(graph) - 1;
        let case = Case::of("bound too low", &bounded(graph, low));
        for room in [0, 1, graph.edges.len(), graph.edges.len() + 2] {
            tally.compare(&case, room);
        }
    }
    let edges: usize = graphs.iter().map(|graph| graph.edges.len()).sum();
    assert_eq!(tally.calls[0], 4 * graphs.len());
    assert_eq!(tally.calls[16], edges);
    assert_eq!(tally.calls[12], 4 * graphs.len());
    tally.close(&[(1, 30)], &[12, 16]);
}

/// Every set of faults: the answer must be that of the first, in document 01's sequence. `files.rs` has every fault of a file. That of
/// the call itself, 16, is made below.
#[test]
fn sequence_of_refusals() {
    let faults: [Fault<GraphFields>; 15] = [
        ("no header", (1, 0), |_| (), |b| b.truncate(6)),
        ("version", (2, 0), |f| f.version = 2, |_| ()),
        ("edges", (3, 0), |f| f.edge_count = 257, |_| ()),
        ("short", (1, 0), |_| (), |b| b.truncate(b.len() - 1)),
        ("long", (4, 0), |_| (), |b| b.push(0)),
        ("filling", (4, 0), |f| f.filling = 1, |_| ()),
        ("output", (6, 0), |f| f.output = 6, |_| ()),
        ("task 5", (5, 5), |f| f.tasks[5].time = 0, |_| ()),
        ("edge 2", (7, 2), |f| f.edges[1].sink = 0, |_| ()),
        ("edge 7 as 6", (8, 7), |f| f.edges[6] = f.edges[5], |_| ()),
        ("cycle", (9, 0), |f| f.edges[3].delay = 0, |_| ()),
        ("into the input", (10, 0), |f| f.edges[4].delay = 0, |_| ()),
        (
            "no path",
            (11, 0),
            |f| f.output = if f.output == 3 { 5 } else { f.output },
            |_| (),
        ),
        ("bound", (12, 0), |f| f.bound = 0, |_| ()),
        ("list", (16, 0), |_| (), |_| ()),
    ];
    let mut tally = Tally::new("sequence");
    for faulty in every_set_of_faults(&small(), &faults, write_graph) {
        let case = Case::new(&faulty.name, &faulty.file);
        let short = faulty.refusals.contains(&(16, 0));
        let answer = case.compare(if short { 6 } else { 7 });
        let (number, place) = faulty.first();
        assert_eq!(answer.refusal, refusal(number, place), "{}", faulty.name);
        tally.calls[number] += 1;
    }
    for number in (0..=12).chain([16]) {
        assert!(tally.calls[number] > 0, "no {number}");
    }
    tally.close(&[], &[1, 2, 3, 4, 5, 6]);
}

// ---- Named graphs ----

/// The plan of both sides: edges, number of steps and latency.
fn gets(graph: &Graph, edges: &[Edge], steps: usize, latency: usize) {
    let case = Case::of("named", graph);
    let answer = case.compare(graph.edges.len());
    let figures = (answer.length, answer.steps, answer.latency);
    assert_eq!(
        figures,
        (edges.len() as u32, steps as u32, latency as u32),
        "{graph:?}"
    );
    assert_eq!(case.plan().edges, edges, "{graph:?}");
    case.judge();
}

#[test]
fn example_desk() {
    let desk = schedule::accept_graph(&DESK).expect("accepted");
    for bound in [LARGEST_BOUND, 12, 11, 10] {
        gets(&bounded(&desk, bound), &[edge(1, 2, 0)], 1, 10);
    }
    gets(&bounded(&desk, 9), &[edge(0, 2, 0), edge(1, 3, 0)], 0, 9);

    let nothing = proved::Edge {
        source: 7,
        sink: 7,
        delay: 7,
    };
    let mut list = [nothing; 4];
    let answer = proved::plan(&DESK, &mut list);
    let plan = PlanAnswer {
        refusal: refusal(0, 0),
        length: 1,
        steps: 1,
        latency: 10,
    };
    assert_eq!(answer, plan);
    assert_eq!(list[0], records(&[edge(1, 2, 0)])[0]);
    assert_eq!(list[1..], [nothing; 3]);
    assert_eq!(proved::verdict(&DESK, &PROPOSAL).latency, 10);

    let mut low = DESK;
    low[6] = 8;
    for room in [0, 2, 3, 4] {
        let answer = Case::new("bound 8", &low).compare(room);
        assert_eq!(answer.refusal, refusal(12, 0));
    }
    let short = Case::new("short list", &DESK).compare(2);
    assert_eq!(short.refusal, refusal(16, 0));
}

/// Tasks of these processors, each of time 1; input 0, and the largest bound.
fn graph(processors: &[usize], edges: &[Edge], output: usize) -> Graph {
    let tasks = processors
        .iter()
        .map(|&processor| Task { processor, time: 1 });
    Graph {
        tasks: tasks.collect(),
        edges: edges.to_vec(),
        input: 0,
        output,
        bound: LARGEST_BOUND,
    }
}

#[test]
fn named_graphs() {
    let (two_by_two, two_by_three) = ([0, 0, 1, 1], [0, 0, 0, 1, 1, 1]);

    // No edge, one edge, only feedback edges.
    gets(&graph(&two_by_two, &[], 1), &[], 0, 2);
    let one = edge(0, 3, 0);
    gets(&graph(&two_by_two, &[one], 3), &[one], 0, 2);
    let ring = [edge(0, 2, 0), edge(1, 3, 0), edge(3, 0, 1)];
    gets(&graph(&two_by_two, &ring, 3), &[], 0, 3);

    // Ties: from 1 or 2 to 3 or 4. Those that are late do not count.
    let tied = [edge(0, 4, 0), edge(1, 5, 0)];
    let tied = graph(&two_by_three, &tied, 5);
    gets(&tied, &[edge(1, 3, 0)], 1, 5);
    gets(&bounded(&tied, 4), &[edge(1, 4, 0)], 1, 4);
    gets(&bounded(&tied, 3), &tied.edges, 0, 3);

    // Redundant edges count for nothing: of four subsumed only one is needed.
    let edges = [edge(0, 3, 7), edge(0, 2, 4), edge(1, 3, 5), edge(0, 2, 0)];
    gets(&graph(&two_by_two, &edges, 3), &edges[3..], 0, 3);

    // Delays: round either processor once.
    let edges = [edge(0, 3, 0), edge(1, 2, 1)];
    gets(&graph(&two_by_two, &edges, 3), &[edge(0, 2, 0)], 1, 3);

    // The sequence of the file, without what was dropped, then what was added: two steps between three processors.
    let edges = [
        edge(4, 7, 255),
        edge(0, 2, 0),
        edge(4, 8, 0),
        edge(1, 3, 0),
        edge(5, 9, 0),
        edge(6, 7, 3),
    ];
    let several = graph(&[0, 0, 1, 1, 2, 2, 3, 4, 5, 5], &edges, 3);
    let left = [edges[0], edges[5], edge(1, 2, 0), edge(5, 8, 0)];
    gets(&several, &left, 2, 4);
    let left = [edges[0], edges[1], edges[3], edges[5], edge(5, 8, 0)];
    gets(&bounded(&several, 3), &left, 1, 3);
}

// ---- The checker against itself ----

/// What document 01 says of the plan, held against the checker's; nothing proved is called.
#[test]
fn checker_keeps_to_the_definitions() {
    let g = &mut Generator::new(39);
    for round in 0..1500 {
        let mut graph = if round % 2 == 0 {
            let (task_count, edge_count) = (g.between(2, 12), g.between(0, 24));
            g.staged_graph(task_count, edge_count)
        } else {
            let (task_count, edge_count) = (g.between(4, 12), g.between(4, 40));
            g.graph_to_plan(task_count, edge_count)
        };
        g.set_bound(&mut graph);
        let plan = plans::plan(&graph);
        let feedback = proposals::feedback_edges(&graph);

        // The steps lead from the edges that are not redundant to those of the plan.
        let mut left = plans::needed_edges(&graph);
        assert!(left.iter().all(|edge| !feedback.contains(edge)));
        for step in &plan.steps {
            assert!(step.dropped.len() >= 2);
            for dropped in &step.dropped {
                let at = left.iter().position(|edge| edge == dropped);
                left.remove(at.expect("only feedforward edges are dropped"));
            }
            assert!(!left.contains(&step.added) && !feedback.contains(&step.added));
            left.push(step.added);
            // On the way, too, it is a proposal that is accepted.
            let verdict = proposals::judge(&graph, &left);
            assert_eq!(verdict.number(), 0);
        }
        assert_eq!(left, plan.edges);

        // No feedforward edge left is redundant, and there is nothing to plan anew.
        let result = proposals::result(&graph, &plan.edges);
        assert_eq!(plan.latency, schedule::latency(&result));
        assert!(schedule::redundant_places(&result)
            .iter()
            .all(|place| *place <= feedback.len()));
        let again = plans::plan(&result);
        assert_eq!((again.edges, again.steps), (plan.edges, Vec::new()));
    }
}

/// Figure 10 as it is printed, with its tables brought up to date at every step and its formula (25) for latency; but redundant edges go
/// first, and a candidate must subsume two. Edges, number of steps and latency.
fn figure_10(graph: &Graph) -> (Vec<Edge>, usize, usize) {
    let tasks = graph.tasks.len();
    let time = |task: usize| graph.tasks[task].time;
    let sum = |a: Option<usize>, b: Option<usize>| Some(a? + b?);
    let least = |a: Option<usize>, b: Option<usize>| a.into_iter().chain(b).min();

    // Least delays, and largest sums of times along paths of delay 0 with both ends; a task alone is a path here.
    let mut rho = vec![vec![None; tasks]; tasks];
    let mut longest = vec![vec![None; tasks]; tasks];
    for task in 0..tasks {
        rho[task][task] = Some(0);
        longest[task][task] = Some(time(task));
    }
    for edge in schedule::all_edges(graph) {
        let (a, b) = (edge.source, edge.sink);
        rho[a][b] = least(rho[a][b], Some(edge.delay));
        if edge.delay == 0 {
            longest[a][b] = longest[a][b].max(Some(time(a) + time(b)));
        }
    }
    for by in 0..tasks {
        for x in 0..tasks {
            for y in 0..tasks {
                rho[x][y] = least(rho[x][y], sum(rho[x][by], rho[by][y]));
                let twice = sum(longest[x][by], longest[by][y]);
                longest[x][y] = longest[x][y].max(twice.map(|sum| sum - time(by)));
            }
        }
    }

    let subsumes = |rho: &[Vec<Option<usize>>], a: usize, b: usize, edge: &Edge| {
        let over = sum(rho[edge.source][a], rho[b][edge.sink]);
        over.map_or(false, |delay| delay <= edge.delay)
    };
    let mut edges = plans::needed_edges(graph);
    let mut steps = 0;
    loop {
        let to = |task: usize| (0..tasks).map(|from| longest[from][task]).max().flatten();
        let latency = to(graph.output).expect("it ends at itself");
        let (mut best, mut most) = (None, 1);
        for x in 0..tasks {
            let to_x = to(x);
            for y in 0..tasks {
                let with = sum(to_x, longest[y][graph.output]).unwrap_or(0);
                if rho[y][x].is_some() || latency.max(with) > graph.bound {
                    continue;
                }
                let number = edges.iter().filter(|e| subsumes(&rho, x, y, e)).count();
                if number > most {
                    (best, most) = (Some((x, y)), number);
                }
            }
        }
        let (a, b) = match best {
            Some(pair) => pair,
            None => return (edges, steps, latency),
        };
        edges.retain(|edge| !subsumes(&rho, a, b, edge));
        edges.push(edge(a, b, 0));
        steps += 1;
        let (old_rho, old_longest) = (rho.clone(), longest.clone());
        for x in 0..tasks {
            for y in 0..tasks {
                let over = sum(old_rho[x][a], old_rho[b][y]);
                rho[x][y] = least(rho[x][y], over);
                let over = sum(old_longest[x][a], old_longest[b][y]);
                longest[x][y] = longest[x][y].max(over);
            }
        }
    }
}

/// Nothing proved is called.
#[test]
fn checker_agrees_with_the_tables_of_figure_10() {
    let g = &mut Generator::new(40);
    let mut with_steps = [0; 4];
    for round in 0..3000 {
        let (task_count, edge_count) = (g.between(4, 12), g.between(4, 40));
        let mut graph = match round % 8 {
            0 | 1 => g.staged_graph(task_count, edge_count),
            2 => g.graph_of_copies(),
            _ => g.graph_to_plan(task_count, edge_count),
        };
        g.set_bound(&mut graph);
        let plan = plans::plan(&graph);
        let figures = (plan.edges, plan.steps.len(), plan.latency);
        assert_eq!(figures, figure_10(&graph), "{graph:?}");
        with_steps[plan.steps.len().min(3)] += 1;
    }
    for _ in 0..10 {
        let graph = g.graph_to_plan(64, 256);
        let plan = plans::plan(&graph);
        let figures = (plan.edges, plan.steps.len(), plan.latency);
        assert_eq!(figures, figure_10(&graph), "{graph:?}");
    }
    print(&format!(
        "\nFigure 10: plans of 0, 1, 2 and more steps: {with_steps:?}"
    ));
    assert!(with_steps.iter().all(|count| *count >= 300));
}
