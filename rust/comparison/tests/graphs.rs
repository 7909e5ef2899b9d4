//! The proved calls on a graph against the independent checker: figures, least delays, redundant edges and timetable. Whole
//! answers are compared, and whole lent lists with the memory beside them; both sides also against numbers of document 01.
//!
//! Everything is seeded: a run has the same cases as any other.

use checker::files::{write_graph, Edge, Graph, GraphFields, Task};
use checker::schedule;
use comparison::expected::{self, refusal, Judged};
use comparison::generator::damage::{BYTE_DAMAGES, GRAPH_DAMAGES};
use comparison::generator::desk::{edge, flipped, print, shown, small, DESK};
use comparison::generator::desks::FAULTS;
use comparison::generator::faults::{every_set_of_faults, Fault};
use comparison::generator::lists::{lend, lent, no_delay, no_start, BESIDE};
use comparison::generator::Generator;
use resync::raw::{self as proved, FiguresAnswer, RedundantAnswer, Refusal};
use std::fmt::Debug;

/// Numbers of turns that refusal 17 is for. Cut to 8, 16 or 32 bits, some would be right.
const WRONG_TURNS: [usize; 16] = [
    0,
    65,
    66,
    127,
    128,
    255,
    256,
    257,
    (1 << 16) + 1,
    1 << 31,
    1 << 32,
    (1 << 32) + 1,
    (1 << 32) + 64,
    1 << 63,
    usize::MAX - 63,
    usize::MAX,
];

// ---- Comparing ----

/// A graph file, and what the checker makes of it.
struct Case<'a> {
    name: &'a str,
    file: &'a [u8],
    graph: Judged,
    /// The least delays as the call writes them, and the places of the redundant edges; none if the graph is refused.
    table: Vec<u16>,
    redundant: Vec<usize>,
}

impl Case<'_> {
    fn new<'a>(name: &'a str, file: &'a [u8]) -> Case<'a> {
        let graph = schedule::accept_graph(file);
        let accepted = graph.as_ref().ok();
        Case {
            name,
            file,
            table: accepted.map(expected::table).unwrap_or_default(),
            redundant: accepted.map(schedule::redundant_places).unwrap_or_default(),
            graph,
        }
    }

    /// The starts as a call writes them; none if there is no timetable.
    fn starts(&self, turns: usize) -> Vec<u32> {
        match &self.graph {
            Ok(graph) if (1..=64).contains(&turns) => expected::starts(graph, turns as u64),
            _ => Vec::new(),
        }
    }

    fn compare_figures(&self) -> FiguresAnswer {
        let proved = proved::figures(self.file);
        self.same("figures", &proved, &expected::figures(&self.graph));
        proved
    }

    fn compare_redundant(&self) -> RedundantAnswer {
        let proved = proved::redundant(self.file);
        let expected = expected::redundant(&self.graph, &self.redundant);
        self.same("redundant", &proved, &expected);
        proved
    }

    /// Lends a list of so many elements for the least delays.
    fn compare_least_delays(&self, room: usize) -> Refusal {
        let (proved, memory) = lend(room, no_delay, |list| proved::least_delays(self.file, list));
        let what = format!("least delays, list of {room}");
        let expected = expected::least_delays(&self.graph, room);
        self.same(&what, &proved, &expected);
        let written = written_if(&expected, &self.table);
        self.same_memory(&what, &memory, &lent(room, no_delay, written));
        proved
    }

    /// Lends a list of so many elements for so many turns. `starts` is what [`Case::starts`] gives for them.
    fn compare_timetable(&self, turns: usize, starts: &[u32], room: usize) -> Refusal {
        let (proved, memory) = lend(room, no_start, |list| {
            proved::timetable(self.file, turns as u64, list)
        });
        let what = format!("timetable of {turns} turns, list of {room}");
        let expected = expected::timetable(&self.graph, turns as u64, room);
        self.same(&what, &proved, &expected);
        let written = written_if(&expected, starts);
        self.same_memory(&what, &memory, &lent(room, no_start, written));
        proved
    }

    fn same<T: Debug + PartialEq>(&self, what: &str, proved: &T, expected: &T) {
        assert!(
            proved == expected,
            "{}: {what}\nproved: {proved:?}\nchecker: {expected:?}\n{}",
            self.name,
            shown(self.file)
        );
    }

    fn same_memory<T: Debug + PartialEq>(&self, what: &str, proved: &[T], expected: &[T]) {
        let differs = (0..expected.len()).find(|&at| proved[at] != expected[at]);
        if let Some(at) = differs {
            panic!(
                "{}: {what}\nelement {} (of the list from 0)\nproved: {:?}\nchecker: {:?}\n{}",
                self.name,
                at as isize - BESIDE as isize,
                proved[at],
                expected[at],
                shown(self.file)
            );
        }
    }
}

/// What is written to the front of a lent list: nothing if the call is refused.
fn written_if<'a, T>(refusal: &Refusal, list: &'a [T]) -> &'a [T] {
    if refusal.number == 0 {
        list
    } else {
        &[]
    }
}

/// How often each refusal was reached by each call; entry 0 counts the calls that succeed.
struct Tally {
    what: &'static str,
    files: usize,
    figures: [usize; 18],
    least_delays: [usize; 18],
    redundant: [usize; 18],
    timetable: [usize; 18],
    /// Edges in accepted graphs, and those of them that are redundant.
    edges: usize,
    redundant_edges: usize,
}

impl Tally {
    fn new(what: &'static str) -> Tally {
        Tally {
            what,
            files: 0,
            figures: [0; 18],
            least_delays: [0; 18],
            redundant: [0; 18],
            timetable: [0; 18],
            edges: 0,
            redundant_edges: 0,
        }
    }

    /// Every call on a file, with lent lists of every sort of length.
    fn every_call(&mut self, g: &mut Generator, name: &str, file: &[u8], turns: &[usize]) {
        let case = Case::new(name, file);
        self.files += 1;
        let figures = case.compare_figures();
        self.figures[figures.refusal.number as usize] += 1;
        self.edges += figures.edges as usize;
        let redundant = case.compare_redundant();
        self.redundant[redundant.refusal.number as usize] += 1;
        self.redundant_edges += redundant.count as usize;

        let tasks = match &case.graph {
            Ok(graph) => graph.tasks.len(),
            Err(_) => g.task_count(),
        };
        for room in rooms(g, tasks * tasks) {
            let refusal = case.compare_least_delays(room);
            self.least_delays[refusal.number as usize] += 1;
        }
        for &turns in turns {
            let starts = case.starts(turns);
            for room in rooms(g, tasks * turns.min(65)) {
                let refusal = case.compare_timetable(turns, &starts, room);
                self.timetable[refusal.number as usize] += 1;
            }
        }
    }

    /// Each call, with its counts and the last number it gives.
    fn calls(&self) -> [(&'static str, &[usize; 18], usize); 4] {
        [
            ("figures", &self.figures, 12),
            ("least delays", &self.least_delays, 16),
            ("redundant", &self.redundant, 12),
            ("timetable", &self.timetable, 17),
        ]
    }

    fn print(&self) {
        let mut lines = format!(
            "\n{}: {} files; {} of {} edges redundant\n",
            self.what, self.files, self.redundant_edges, self.edges
        );
        for (call, reached, _) in self.calls() {
            let total: usize = reached.iter().sum();
            lines += &format!("  {call}: {total} calls; succeeded {}", reached[0]);
            for (number, count) in reached.iter().enumerate().skip(1) {
                if *count > 0 {
                    lines += &format!("; refusal {number}: {count}");
                }
            }
            lines += "\n";
        }
        print(&lines);
    }

    /// Prints the counts and asserts that there are enough of each: a hundred of every refusal named, by each call that gives
    /// it, and a thousand successes.
    fn close(&self, files: usize, refusals: &[usize]) {
        self.print();
        assert!(self.files >= files, "too few files");
        for (call, reached, last) in self.calls() {
            assert!(reached[0] >= 1000, "{call}: too few that succeed");
            for &number in refusals.iter().filter(|number| **number <= last) {
                assert!(reached[number] >= 100, "{call}: too few of {number}");
            }
        }
    }
}

/// Lengths of lent lists: none, one element short, just enough, more.
fn rooms(g: &mut Generator, needed: usize) -> Vec<usize> {
    let short = needed.saturating_sub(1);
    vec![0, short, needed, needed + g.between(1, 100)]
}

// ---- Many graphs, counted ----

#[test]
fn many_accepted_graphs() {
    let mut tally = Tally::new("accepted graphs");
    let g = &mut Generator::new(11);

    for task_count in 2..=64 {
        for edge_count in [0, 1, 2, 5, g.between(6, 40), g.between(41, 256), 256] {
            let mut graph = g.accepted_graph(task_count, edge_count);
            g.tune_delays(&mut graph);
            let turns = [1, g.between(2, 64), g.pick(&WRONG_TURNS)];
            let file = write_graph(&GraphFields::of(&graph));
            tally.every_call(g, "accepted, every number of tasks", &file, &turns);
        }
    }
    for edge_count in 0..=256 {
        let task_count = g.between(2, 16);
        let graph = g.accepted_graph(task_count, edge_count);
        let turns = [g.between(1, 64), 64, g.pick(&WRONG_TURNS)];
        let file = write_graph(&GraphFields::of(&graph));
        tally.every_call(g, "accepted, every number of edges", &file, &turns);
    }
    for _ in 0..6000 {
        let task_count = g.between(2, 9);
        let edge_count = g.between(0, 20);
        let mut graph = g.accepted_graph(task_count, edge_count);
        g.tune_delays(&mut graph);
        let turns = [g.between(1, 64), g.between(1, 9), g.pick(&WRONG_TURNS)];
        let file = write_graph(&GraphFields::of(&graph));
        tally.every_call(g, "accepted, small", &file, &turns);
    }
    assert_eq!(tally.figures[0], tally.files);
    tally.close(6500, &[16, 17]);
}

#[test]
fn many_spoilt_graphs() {
    let mut tally = Tally::new("spoilt graphs");
    let g = &mut Generator::new(12);

    for (name, spoil) in FAULTS {
        for _ in 0..400 {
            let mut graph = g.any_accepted_graph();
            spoil(g, &mut graph);
            let turns = [g.between(1, 64), g.pick(&WRONG_TURNS)];
            tally.every_call(g, name, &write_graph(&GraphFields::of(&graph)), &turns);
        }
    }

    // Faults that meet.
    for _ in 0..5000 {
        let mut graph = g.any_accepted_graph();
        for _ in 0..g.between(2, 4) {
            FAULTS[g.between(0, FAULTS.len() - 1)].1(g, &mut graph);
        }
        let turns = [g.between(1, 64), g.pick(&WRONG_TURNS)];
        let file = write_graph(&GraphFields::of(&graph));
        tally.every_call(g, "several faults", &file, &turns);
    }

    for _ in 0..3000 {
        let graph = g.any_graph();
        let turns = [g.between(1, 64), g.pick(&WRONG_TURNS)];
        let file = write_graph(&GraphFields::of(&graph));
        tally.every_call(g, "any well-formed graph", &file, &turns);
    }
    tally.close(14_000, &[9, 10, 11, 12, 16, 17]);
}

#[test]
fn many_damaged_files() {
    let mut tally = Tally::new("damaged files");
    let g = &mut Generator::new(13);
    let turns = |g: &mut Generator| [g.between(1, 64), g.pick(&WRONG_TURNS)];

    for length in 0..=900 {
        let file = g.bytes(length);
        let turns = turns(g);
        tally.every_call(g, "random bytes", &file, &turns);
    }
    for (name, damage) in GRAPH_DAMAGES {
        for _ in 0..400 {
            let task_count = g.between(2, 12);
            let edge_count = g.between(0, 24);
            let mut fields = GraphFields::of(&g.accepted_graph(task_count, edge_count));
            damage(g, &mut fields);
            let turns = turns(g);
            tally.every_call(g, name, &write_graph(&fields), &turns);
        }
    }
    for (name, damage) in BYTE_DAMAGES {
        for _ in 0..400 {
            let task_count = g.between(2, 12);
            let edge_count = g.between(0, 24);
            let graph = g.accepted_graph(task_count, edge_count);
            let mut file = write_graph(&GraphFields::of(&graph));
            damage(g, &mut file);
            let turns = turns(g);
            tally.every_call(g, name, &file, &turns);
        }
    }

    // Faults that meet, of the graph and of its file.
    for _ in 0..5000 {
        let task_count = g.between(2, 12);
        let edge_count = g.between(0, 24);
        let mut graph = g.accepted_graph(task_count, edge_count);
        for _ in 0..g.between(0, 2) {
            FAULTS[g.between(0, FAULTS.len() - 1)].1(g, &mut graph);
        }
        let mut fields = GraphFields::of(&graph);
        for _ in 0..g.between(0, 2) {
            GRAPH_DAMAGES[g.between(0, GRAPH_DAMAGES.len() - 1)].1(g, &mut fields);
        }
        let mut file = write_graph(&fields);
        if g.once_in(8) {
            BYTE_DAMAGES[g.between(0, BYTE_DAMAGES.len() - 1)].1(g, &mut file);
        }
        let turns = turns(g);
        tally.every_call(g, "several damages", &file, &turns);
    }

    for file in flipped(DESK) {
        let turns = turns(g);
        let name = "example desk, every one or two bits flipped";
        tally.every_call(g, name, &file, &turns);
    }
    tally.close(20_000, &[1, 2, 3, 4, 5, 6, 7, 8, 9, 10, 11, 12, 16, 17]);
}

#[test]
fn largest_graphs() {
    let mut tally = Tally::new("largest graphs");
    let g = &mut Generator::new(14);

    let mut made = 0;
    while made < 60 {
        let tasks = (0..64).map(|v| Task {
            processor: if made % 2 == 0 { v % 16 } else { v / 4 },
            time: 65_535,
        });
        if let Some(graph) = g.accepted_graph_of(tasks.collect(), 256) {
            let file = write_graph(&GraphFields::of(&graph));
            assert_eq!(file.len(), 807);
            tally.every_call(g, "largest", &file, &[64, 65]);
            made += 1;
        }
    }
    assert_eq!(tally.figures[0], 60);

    // All on one processor: the latest start of all.
    let task = |processor| Task {
        processor,
        time: 65_535,
    };
    let mut graph = Graph {
        tasks: vec![task(7); 64],
        edges: Vec::new(),
        input: 0,
        output: 63,
        bound: 64 * 65_535,
    };
    let file = write_graph(&GraphFields::of(&graph));
    let case = Case::new("one processor", &file);
    assert_eq!(case.compare_figures().latency, 4_194_240);
    assert_eq!(case.starts(64)[4095], 4095 * 65_535);
    tally.every_call(g, "one processor", &file, &[1, 2, 63, 64]);
    graph.bound -= 1;
    let file = write_graph(&GraphFields::of(&graph));
    gets("bound one too low", &file, 12, 0);

    // Tasks 4p to 4p + 3 on processor p. A chain of delay 0 through all, each turn of it to wait for the turn before.
    graph.bound += 1;
    graph.tasks = (0..64).map(|v| task(v / 4)).collect();
    graph.edges = (1..16).map(|p| edge(4 * p - 1, 4 * p, 0)).collect();
    graph.edges.push(edge(63, 0, 1));
    let file = write_graph(&GraphFields::of(&graph));
    let case = Case::new("a chain through all", &file);
    assert_eq!(case.starts(64)[4095], 4095 * 65_535);
    tally.every_call(g, "a chain through all", &file, &[1, 2, 63, 64]);

    // Each processor is left from its first task and entered at its last, at delay 255: the largest least delay.
    graph.output = 3;
    graph.edges = (1..16).map(|p| edge(4 * p - 4, 4 * p + 3, 255)).collect();
    let file = write_graph(&GraphFields::of(&graph));
    let case = Case::new("delays of 255", &file);
    assert_eq!(case.table[64 + 60], 16 + 15 * 255);
    tally.every_call(g, "delays of 255", &file, &[1, 64]);

    // Every edge but one redundant: 0 -> 1 with delays 0 to 255.
    graph.tasks = vec![task(0), task(1)];
    graph.output = 1;
    graph.edges = (0..256).map(|delay| edge(0, 1, delay)).collect();
    let file = write_graph(&GraphFields::of(&graph));
    let set = Case::new("255 redundant", &file).compare_redundant();
    let words = [u64::MAX >> 1, u64::MAX, u64::MAX, u64::MAX];
    assert_eq!((set.words, set.count), (words, 255));
    tally.every_call(g, "255 redundant", &file, &[1, 64]);

    tally.print();
}

// ---- Named graphs, with the answers of document 01 ----

/// Both sides, in all calls with 64 turns and long lists, must give this refusal, 0 and 0 for none.
fn gets(name: &str, file: &[u8], number: usize, place: usize) {
    let case = Case::new(name, file);
    let expected = refusal(number, place);
    assert_eq!(case.compare_figures().refusal, expected, "{name}");
    assert_eq!(case.compare_redundant().refusal, expected, "{name}");
    assert_eq!(case.compare_least_delays(4096), expected, "{name}");
    let starts = case.starts(64);
    let timetable = case.compare_timetable(64, &starts, 4096);
    assert_eq!(timetable, expected, "{name}");
}

#[test]
fn example_desk() {
    let case = Case::new("example desk", &DESK);
    let figures = FiguresAnswer {
        refusal: refusal(0, 0),
        tasks: 4,
        edges: 3,
        latency: 9,
    };
    assert_eq!(case.compare_figures(), figures);

    let set = case.compare_redundant();
    assert_eq!(set.refusal, refusal(0, 0));
    assert_eq!(set.words, [0x2000_0000_0000_0000, 0, 0, 0]);
    assert_eq!(set.count, 1);
    assert_eq!(case.redundant, [3]);

    let none = 65_535;
    let table = [
        [1, 0, 0, 0],
        [1, 1, 1, 0],
        [none, none, 1, 0],
        [none, none, 1, 1],
    ];
    assert_eq!(case.table, table.concat());
    let mut lent = [7; 18];
    assert_eq!(proved::least_delays(&DESK, &mut lent), refusal(0, 0));
    assert_eq!(lent[..], [&table.concat()[..], &[7, 7]].concat());

    let starts = [0, 2, 2, 5, 5, 7, 9, 10];
    assert_eq!(case.starts(2), starts);
    let mut lent = [7; 9];
    assert_eq!(proved::timetable(&DESK, 2, &mut lent), refusal(0, 0));
    assert_eq!(lent[..], [&starts[..], &[7]].concat());

    // Bounds 8 and 9: the latency is 9.
    let mut file = DESK;
    file[6] = 9;
    gets("bound 9", &file, 0, 0);
    file[6] = 8;
    gets("bound 8", &file, 12, 0);
}

#[test]
fn lengths_of_lists_and_numbers_of_turns() {
    let case = Case::new("example desk", &DESK);
    for room in 0..40 {
        let number = if room < 16 { 16 } else { 0 };
        assert_eq!(case.compare_least_delays(room), refusal(number, 0));
    }
    for turns in 1..=64 {
        let starts = case.starts(turns);
        for room in 0..4 * turns + 9 {
            let number = if room < 4 * turns { 16 } else { 0 };
            let timetable = case.compare_timetable(turns, &starts, room);
            assert_eq!(timetable, refusal(number, 0));
        }
    }
    for turns in WRONG_TURNS {
        for room in [0, 1, 4, 255, 256, 260, 5000] {
            let timetable = case.compare_timetable(turns, &[], room);
            assert_eq!(timetable, refusal(17, 0));
        }
    }
}

#[test]
fn bounds_of_the_schedule_refusals() {
    let with = |name: &str, change: fn(&mut GraphFields), number: usize| {
        let mut fields = small();
        change(&mut fields);
        gets(name, &write_graph(&fields), number, 0);
    };
    with("as it is", |_| (), 0);

    // 9: over synchronization edges alone, or with processor edges; also away from input and output.
    with("4 -> 5 -> 4", |f| f.edges[3].delay = 0, 9);
    with("0 -> 2 -> 3 -> 0", |f| f.edges[4] = edge(3, 0, 0), 9);
    with("1 -> 3, 3 -> 1", |f| f.edges[4] = edge(3, 1, 0), 9);
    with("1 -> 3, 2 -> 0", |f| f.edges[4] = edge(2, 0, 0), 9);
    with("3 -> 0 with a delay", |f| f.edges[4] = edge(3, 0, 1), 0);
    with(
        "0 -> 2 -> 1 -> 3",
        |f| {
            f.edges[4] = edge(2, 1, 0);
            f.bound = 15;
        },
        0,
    );

    // 10: an edge of the file, or of its processor.
    with("4 -> 0", |f| f.edges[4].delay = 0, 10);
    with("4 -> 0, delay 1", |f| f.edges[4].delay = 1, 0);
    with("second on its processor", |f| f.input = 1, 10);
    with("last on its processor", |f| f.input = 3, 10);
    with("after 4", |f| f.input = 5, 10);
    with("lone", |f| f.input = 4, 11);
    with(
        "lone, to its only neighbour",
        |f| {
            f.input = 4;
            f.output = 5;
        },
        0,
    );

    // 11: the same task, or no path, or one with a delay.
    with("output 0", |f| f.output = 0, 11);
    with("output 1", |f| f.output = 1, 0);
    with("output 2", |f| f.output = 2, 0);
    with("output 4", |f| f.output = 4, 11);
    with("output 5", |f| f.output = 5, 11);
    with("0 -> 2 has a delay", |f| f.edges[0].delay = 1, 0);
    with("1 -> 3 has a delay", |f| f.edges[1].delay = 1, 0);
    with(
        "both have a delay",
        |f| {
            f.edges[0].delay = 1;
            f.edges[1].delay = 1;
        },
        11,
    );

    // 12: the latency is 5 + 2 + 7 = 14, and counts from any task.
    with("bound 13", |f| f.bound = 13, 12);
    with("bound 0", |f| f.bound = 0, 12);
    with("largest bound", |f| f.bound = (1 << 23) - 1, 0);
    with("4 -> 3, time 7", |f| f.edges[2] = edge(4, 3, 0), 0);
    with(
        "4 -> 3, time 8",
        |f| {
            f.edges[2] = edge(4, 3, 0);
            f.tasks[4].time = 8;
        },
        12,
    );
}

/// Every set of faults: the answer must be that of the first, in document 01's sequence. Of the file's own refusals one fault each
/// stands here; `files.rs` has all of them, with their sequence among themselves. Those of the call itself, 16 and 17, are made
/// below.
#[test]
fn sequence_of_refusals() {
    let faults: [Fault<GraphFields>; 16] = [
        ("turns", (17, 0), |_| (), |_| ()),
        ("no header", (1, 0), |_| (), |b| b.truncate(6)),
        ("version", (2, 0), |f| f.version = 2, |_| ()),
        ("tasks", (3, 0), |f| f.task_count = 65, |_| ()),
        ("long", (4, 0), |_| (), |b| b.push(0)),
        ("filling", (4, 0), |f| f.filling = 1, |_| ()),
        ("output", (6, 0), |f| f.output = 6, |_| ()),
        ("task 5", (5, 5), |f| f.tasks[5].time = 0, |_| ()),
        ("edge 2", (7, 2), |f| f.edges[1].sink = 0, |_| ()),
        ("edge 7 as 6", (8, 7), |f| f.edges[6] = f.edges[5], |_| ()),
        ("cycle", (9, 0), |f| f.edges[3].delay = 0, |_| ()),
        ("into the input", (10, 0), |f| f.edges[4].delay = 0, |_| ()),
        (
            "output is input",
            (11, 0),
            |f| f.output = if f.output == 3 { 0 } else { f.output },
            |_| (),
        ),
        (
            "no path",
            (11, 0),
            |f| f.output = if f.output == 3 { 5 } else { f.output },
            |_| (),
        ),
        ("bound", (12, 0), |f| f.bound = 0, |_| ()),
        ("list", (16, 0), |_| (), |_| ()),
    ];
    let mut first = [0; 18];
    for faulty in every_set_of_faults(&small(), &faults, write_graph) {
        let name = &faulty.name;
        let case = Case::new(name, &faulty.file);
        // What a call must answer that does not give these numbers.
        let without = |numbers: &[usize]| {
            let mut left = faulty.refusals.iter().filter(|r| !numbers.contains(&r.0));
            let (number, place) = left.next().copied().unwrap_or((0, 0));
            refusal(number, place)
        };

        let figures = case.compare_figures();
        assert_eq!(figures.refusal, without(&[16, 17]), "{name}");
        let redundant = case.compare_redundant();
        assert_eq!(redundant.refusal, without(&[16, 17]), "{name}");
        let short = faulty.refusals.contains(&(16, 0));
        let least_delays = case.compare_least_delays(if short { 35 } else { 36 });
        assert_eq!(least_delays, without(&[17]), "{name}");
        let turns = if faulty.refusals.contains(&(17, 0)) {
            65
        } else {
            3
        };
        let starts = case.starts(turns);
        let needed = 6 * turns;
        let room = if short { needed - 1 } else { needed };
        let timetable = case.compare_timetable(turns, &starts, room);
        assert_eq!(timetable, without(&[]), "{name}");
        first[timetable.number as usize] += 1;
    }
    print(&format!("\nsequence: timetable calls by number {first:?}"));
}

// ---- The checker against itself ----

/// What document 01 says of least delays, runs and latency, held against the checker's answers; nothing proved is called.
#[test]
fn checker_keeps_to_the_definitions() {
    let g = &mut Generator::new(16);
    for _ in 0..300 {
        let graph = g.any_accepted_graph();
        let edges = schedule::all_edges(&graph);
        assert_eq!(schedule::judge(&graph), Ok(()));

        // A path is an edge, or an edge and a path.
        let least = schedule::least_delays(&graph);
        for (from, row) in least.iter().enumerate() {
            for (to, &delay) in row.iter().enumerate() {
                let mut sums = Vec::new();
                for edge in edges.iter().filter(|edge| edge.source == from) {
                    if edge.sink == to {
                        sums.push(edge.delay);
                    }
                    sums.extend(least[edge.sink][to].map(|rest| edge.delay + rest));
                }
                assert_eq!(delay, sums.into_iter().min());
            }
            assert_eq!(row[from], Some(1));
        }

        // Every edge is satisfied, and every start is 0 or the end that an edge asks for: no earlier run is allowed.
        let turns = g.between(1, 64);
        let starts = schedule::timetable(&graph, turns);
        for turn in 1..=turns {
            for (task, &start) in starts[turn - 1].iter().enumerate() {
                let into = edges.iter().filter(|e| e.sink == task && turn > e.delay);
                let end =
                    |e: &Edge| starts[turn - e.delay - 1][e.source] + graph.tasks[e.source].time;
                assert_eq!(start, into.map(end).max().unwrap_or(0));
            }
        }
        let end = starts[0][graph.output] + graph.tasks[graph.output].time;
        assert_eq!(schedule::latency(&graph), end);
    }
}

/// The largest sum of times over all paths that end at this task, every one gone along.
fn latency_by_every_path(graph: &Graph, undelayed: &[Edge], task: usize) -> usize {
    let before = undelayed.iter().filter(|edge| edge.sink == task);
    let before = before.map(|edge| latency_by_every_path(graph, undelayed, edge.source));
    graph.tasks[task].time + before.max().unwrap_or(0)
}

/// The least sum of delays over all paths that come to no task twice, but for the ends; they suffice, as no delay is negative.
fn least_by_every_path(edges: &[Edge], at: usize, to: usize, passed: &[usize]) -> Option<usize> {
    let mut sums = Vec::new();
    for edge in edges.iter().filter(|edge| edge.source == at) {
        if edge.sink == to {
            sums.push(edge.delay);
        } else if edge.sink != at && !passed.contains(&edge.sink) {
            let passed = [passed, &[at]].concat();
            let rest = least_by_every_path(edges, edge.sink, to, &passed);
            sums.extend(rest.map(|rest| edge.delay + rest));
        }
    }
    sums.into_iter().min()
}

#[test]
fn checker_agrees_with_every_path() {
    let g = &mut Generator::new(17);
    for _ in 0..2000 {
        let task_count = g.between(2, 6);
        let edge_count = g.between(0, 10);
        let graph = g.accepted_graph(task_count, edge_count);
        let undelayed = schedule::undelayed_edges(&graph);
        let latency = latency_by_every_path(&graph, &undelayed, graph.output);
        assert_eq!(schedule::latency(&graph), latency);

        let least = schedule::least_delays(&graph);
        let edges = schedule::all_edges(&graph);
        for (from, row) in least.iter().enumerate() {
            for (to, &delay) in row.iter().enumerate() {
                assert_eq!(delay, least_by_every_path(&edges, from, to, &[]));
            }
        }
    }
}
