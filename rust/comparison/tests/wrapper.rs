//! The safe calls against the raw ones: the same answers, `Ok` exactly if nothing is refused, and refusals of the right file.
//!
//! Everything is seeded: a run has the same cases as any other.

use checker::files::{write_graph, GraphFields};
use checker::schedule;
use comparison::generator::desk::{print, shown};
use comparison::generator::Generator;
use resync::{raw, Refused, NO_PATH};

/// What a safe call must be, `Ok` or the refusal, for a raw refusal.
fn expected<T>(answer: raw::Refusal, refused: Refused, accepted: T) -> Result<T, Told> {
    match answer.number {
        0 => Ok(accepted),
        _ => Err((
            refused,
            answer.number,
            answer.place as usize,
            answer.latency,
            answer.margin,
        )),
    }
}

/// What a refusal tells: what is refused, number, place, latency and margin.
type Told = (Refused, u32, usize, u32, i32);

fn told(refusal: resync::Refusal) -> Told {
    let resync::Refusal {
        refused,
        number,
        place,
        latency,
        margin,
        ..
    } = refusal;
    (refused, number, place, latency, margin)
}

/// What is refused by a call that takes no proposal.
fn by_number(answer: raw::Refusal) -> Refused {
    match answer.number {
        16 | 17 => Refused::Call,
        _ => Refused::Graph,
    }
}

fn compare_figures(graph: &[u8]) {
    let raw = raw::figures(graph);
    let safe = resync::figures(graph).map(|f| (f.tasks as u32, f.edges as u32, f.latency));
    let accepted = (raw.tasks, raw.edges, raw.latency);
    let expected = expected(raw.refusal, Refused::Graph, accepted);
    assert_eq!(safe.map_err(told), expected, "{}", shown(graph));
}

fn compare_redundant(graph: &[u8]) {
    let raw = raw::redundant(graph);
    let expected = expected(raw.refusal, Refused::Graph, (raw.words, raw.count as usize));
    let safe = resync::redundant(graph);
    if let Ok(redundant) = &safe {
        let places = schedule::places(raw.words);
        assert_eq!(redundant.places().collect::<Vec<usize>>(), places);
        for place in 0..=300 {
            assert_eq!(redundant.contains(place), places.contains(&place));
        }
    }
    let safe = safe.map(|r| (r.words(), r.count()));
    assert_eq!(safe.map_err(told), expected, "{}", shown(graph));
}

/// The whole table, and one written into a list of so many elements.
fn compare_least_delays(graph: &[u8], room: usize) {
    let mut table = [0; 64 * 64];
    let answer = raw::least_delays(graph, &mut table);
    let tasks = raw::figures(graph).tasks as usize;
    let rows: Vec<&[u16]> = table[..tasks * tasks].chunks(tasks.max(1)).collect();
    let safe = resync::least_delays(graph);
    if let Ok(delays) = &safe {
        assert_eq!(delays.tasks(), tasks);
        for (from, row) in rows.iter().enumerate() {
            for (to, delay) in row.iter().enumerate() {
                let least = Some(*delay).filter(|delay| *delay != NO_PATH);
                assert_eq!(delays.get(from, to), least);
            }
        }
        for (from, to) in [(tasks, 0), (0, tasks), (usize::MAX, usize::MAX)] {
            assert_eq!(delays.get(from, to), None);
        }
    }
    let expected_rows = expected(answer, Refused::Graph, rows.concat());
    let safe = safe.map(|delays| delays.rows().collect::<Vec<&[u16]>>().concat());
    assert_eq!(safe.map_err(told), expected_rows, "{}", shown(graph));

    let (mut into_raw, mut into_safe) = (vec![0xA5A5; room], vec![0xA5A5; room]);
    let answer = raw::least_delays(graph, &mut into_raw);
    let safe = resync::least_delays_into(graph, &mut into_safe);
    assert_eq!(safe.map_err(told), expected(answer, by_number(answer), ()));
    assert_eq!(into_safe, into_raw);
}

/// The whole timetable, and one written into a list of so many elements.
fn compare_timetable(graph: &[u8], turns: usize, room: usize) {
    let mut starts = [0; 64 * 64];
    let answer = raw::timetable(graph, turns as u64, &mut starts);
    let tasks = raw::figures(graph).tasks as usize;
    let length = if answer.number == 0 { tasks * turns } else { 0 };
    let rows: Vec<&[u32]> = starts[..length].chunks(tasks.max(1)).collect();
    let safe = resync::timetable(graph, turns);
    if let Ok(timetable) = &safe {
        assert_eq!((timetable.tasks(), timetable.turns().len()), (tasks, turns));
        for (turn, row) in (1..).zip(&rows) {
            for (task, start) in row.iter().enumerate() {
                assert_eq!(timetable.start(turn, task), Some(*start));
            }
        }
        for (turn, task) in [(0, 0), (turns + 1, 0), (1, tasks), (usize::MAX, usize::MAX)] {
            assert_eq!(timetable.start(turn, task), None);
        }
    }
    let expected_rows = expected(answer, by_number(answer), rows.concat());
    let safe = safe.map(|timetable| timetable.turns().collect::<Vec<&[u32]>>().concat());
    assert_eq!(safe.map_err(told), expected_rows, "{}", shown(graph));

    let (mut into_raw, mut into_safe) = (vec![0xA5A5_A5A5; room], vec![0xA5A5_A5A5; room]);
    let answer = raw::timetable(graph, turns as u64, &mut into_raw);
    let safe = resync::timetable_into(graph, turns, &mut into_safe);
    assert_eq!(safe.map_err(told), expected(answer, by_number(answer), ()));
    assert_eq!(into_safe, into_raw);
}

fn compare_verdict(graph: &[u8], proposal: &[u8]) -> Result<(), Told> {
    let raw = raw::verdict(graph, proposal);
    let refused = match raw::figures(graph).refusal.number {
        0 => Refused::Proposal,
        _ => Refused::Graph,
    };
    let expected = expected(raw.refusal, refused, (raw.latency, raw.margin));
    let safe = resync::verdict(graph, proposal).map(|a| (a.latency, a.margin));
    let safe = safe.map_err(told);
    assert_eq!(safe, expected, "{}\n{}", shown(graph), shown(proposal));
    safe.map(|_| ())
}

/// The whole plan, and one written into a list of so many records.
fn compare_plan(graph: &[u8], room: usize) {
    let mut edges = [resync::Edge::default(); 256];
    let raw = raw::plan(graph, &mut edges);
    let written = edges[..raw.length as usize].to_vec();
    let accepted = (written, raw.steps as usize, raw.latency);
    let expected_plan = expected(raw.refusal, Refused::Graph, accepted);
    let safe = resync::plan(graph).map(|plan| (plan.edges, plan.steps, plan.latency));
    assert_eq!(safe.map_err(told), expected_plan, "{}", shown(graph));

    let nothing = resync::Edge {
        source: 0xA5,
        sink: 0xA5,
        delay: 0xA5,
    };
    let (mut into_raw, mut into_safe) = (vec![nothing; room], vec![nothing; room]);
    let raw = raw::plan(graph, &mut into_raw);
    let accepted = (raw.length as usize, raw.steps as usize, raw.latency);
    let expected_plan = expected(raw.refusal, by_number(raw.refusal), accepted);
    let safe = resync::plan_into(graph, &mut into_safe);
    let safe = safe.map(|figures| (figures.length, figures.steps, figures.latency));
    assert_eq!(safe.map_err(told), expected_plan);
    assert_eq!(into_safe, into_raw);
}

#[test]
fn safe_calls_agree_with_raw_ones() {
    let g = &mut Generator::new(71);
    let (mut accepted, mut of_graph, mut of_proposal) = (0, 0, 0);
    for _ in 0..20_000 {
        let (graph, proposal) = g.pair_of_files();
        compare_figures(&graph);
        compare_redundant(&graph);
        compare_least_delays(&graph, g.between(0, 150));
        let turns = match g.between(0, 3) {
            0 => g.pick(&[0, 65, 1 << 32, usize::MAX]),
            _ => g.between(1, 64),
        };
        compare_timetable(&graph, turns, g.between(0, 800));
        compare_plan(&graph, g.between(0, 30));
        match compare_verdict(&graph, &proposal) {
            Ok(()) => accepted += 1,
            Err((Refused::Graph, ..)) => of_graph += 1,
            Err(_) => of_proposal += 1,
        }
    }
    print(&format!(
        "\nsafe calls: verdicts accepted {accepted}, graph refused {of_graph}, proposal refused {of_proposal}"
    ));
    assert!(accepted.min(of_graph).min(of_proposal) >= 1000);
}

/// Many and large lists too.
#[test]
fn safe_calls_on_graphs_of_any_size() {
    let g = &mut Generator::new(72);
    for round in 0..300 {
        let (task_count, edge_count) = match round {
            0..=9 => (64, 256),
            _ => (g.between(2, 64), g.between(0, 256)),
        };
        let graph = g.accepted_graph(task_count, edge_count);
        let file = write_graph(&GraphFields::of(&graph));
        compare_figures(&file);
        compare_redundant(&file);
        compare_least_delays(&file, 4096);
        compare_timetable(&file, 64, 4096);
        compare_plan(&file, 256);
    }
}
