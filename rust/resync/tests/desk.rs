//! Every call on document 01's example desk, and every refusal that some bytes get, in its words.

use resync::{Cause, Edge, Refusal, Refused, NO_PATH};

const HEADER: &str = "0840180180000C"; // 4 tasks, 3 edges, input 0, output 3, bound 12
const TASKS: &str = "00002 00003 10001 10004"; // processor and time
const EDGES: &str = "00200 04300 00300"; // source and sink in three digits, delay in two: 0→2, 1→3, 0→3

/// The bytes that hexadecimal digits write; a task or an edge takes five of them.
fn bytes(text: &str) -> Vec<u8> {
    let digits: Vec<u8> = text
        .chars()
        .filter(|digit| !digit.is_whitespace())
        .map(|digit| digit.to_digit(16).expect("hexadecimal digits") as u8)
        .collect();
    let pairs = digits.chunks_exact(2);
    assert!(pairs.remainder().is_empty());
    pairs.map(|two| two[0] << 4 | two[1]).collect()
}

fn graph(header: &str, tasks: &str, edges: &str) -> Vec<u8> {
    bytes(&format!("{header} {tasks} {edges} 0"))
}

fn desk() -> Vec<u8> {
    graph(HEADER, TASKS, EDGES)
}

fn desk_with_bound(bound: u8) -> Vec<u8> {
    let mut graph = desk();
    graph[6] = bound;
    graph
}

fn proposal() -> Vec<u8> {
    bytes("0804 04200 0")
}

fn edge(source: u8, sink: u8, delay: u8) -> Edge {
    Edge {
        source,
        sink,
        delay,
    }
}

fn numbers<T: std::fmt::Debug>(answer: Result<T, Refusal>) -> (Refused, u32, usize, u32, i32) {
    let refusal = answer.expect_err("nothing was refused");
    (
        refusal.refused,
        refusal.number,
        refusal.place,
        refusal.latency,
        refusal.margin,
    )
}

#[test]
fn figures() {
    let figures = resync::figures(&desk()).unwrap();
    assert_eq!((figures.tasks, figures.edges, figures.latency), (4, 3, 9));
}

#[test]
fn least_delays() {
    let table = [
        [1, 0, 0, 0],
        [1, 1, 1, 0],
        [NO_PATH, NO_PATH, 1, 0],
        [NO_PATH, NO_PATH, 1, 1],
    ];
    let delays = resync::least_delays(&desk()).unwrap();
    assert_eq!(delays.tasks(), 4);
    assert!(delays.rows().eq(table));
    assert_eq!(delays.get(1, 2), Some(1));
    assert_eq!(delays.get(2, 1), None);
    assert_eq!(delays.get(4, 0), None);
    assert_eq!(delays.get(0, 4), None);
    assert_eq!(delays.get(usize::MAX, usize::MAX), None);

    let mut lent = [7; 18];
    resync::least_delays_into(&desk(), &mut lent).unwrap();
    assert_eq!(lent[..16], table.concat());
    assert_eq!(lent[16..], [7, 7]);
}

#[test]
fn redundant() {
    let redundant = resync::redundant(&desk()).unwrap();
    assert_eq!(redundant.count(), 1);
    assert_eq!(redundant.words(), [0x2000_0000_0000_0000, 0, 0, 0]);
    assert_eq!(redundant.places().collect::<Vec<_>>(), [3]);
    assert!(redundant.contains(3));
    for place in [0, 1, 2, 4, 256, 257, usize::MAX] {
        assert!(!redundant.contains(place));
    }
}

#[test]
fn timetable() {
    let timetable = resync::timetable(&desk(), 2).unwrap();
    assert_eq!(timetable.tasks(), 4);
    assert!(timetable.turns().eq([[0, 2, 2, 5], [5, 7, 9, 10]]));
    assert_eq!(timetable.start(1, 0), Some(0));
    assert_eq!(timetable.start(2, 2), Some(9));
    for (turn, task) in [(0, 0), (3, 0), (1, 4), (usize::MAX, usize::MAX)] {
        assert_eq!(timetable.start(turn, task), None);
    }
    assert_eq!(resync::timetable(&desk(), 64).unwrap().turns().len(), 64);

    let mut lent = [7; 10];
    resync::timetable_into(&desk(), 2, &mut lent).unwrap();
    assert_eq!(lent, [0, 2, 2, 5, 5, 7, 9, 10, 7, 7]);
}

#[test]
fn verdict() {
    for (bound, margin) in [(12, 2), (10, 0)] {
        let accepted = resync::verdict(&desk_with_bound(bound), &proposal()).unwrap();
        assert_eq!((accepted.latency, accepted.margin), (10, margin));
    }
}

#[test]
fn plan() {
    let plan = resync::plan(&desk()).unwrap();
    assert_eq!(plan.edges, [edge(1, 2, 0)]);
    assert_eq!((plan.steps, plan.latency), (1, 10));

    let plan = resync::plan(&desk_with_bound(9)).unwrap();
    assert_eq!(plan.edges, [edge(0, 2, 0), edge(1, 3, 0)]);
    assert_eq!((plan.steps, plan.latency), (0, 9));

    let mut lent = [edge(9, 9, 9); 3];
    let figures = resync::plan_into(&desk(), &mut lent).unwrap();
    assert_eq!((figures.length, figures.steps, figures.latency), (1, 1, 10));
    assert_eq!(lent, [edge(1, 2, 0), edge(9, 9, 9), edge(9, 9, 9)]);
}

/// A line of 64 tasks, 0 to 31 on processor 0 and 32 to 63 on processor 1, with 256 waits between them.
fn largest_desk() -> Vec<u8> {
    let header = 1u64 << 51 | 64 << 44 | 256 << 35 | 63 << 23 | ((1 << 23) - 1);
    let tasks: Vec<String> = (0..64).map(|task| format!("{:X}FFFF", task / 32)).collect();
    let edges: Vec<String> = (0..256)
        .map(|edge| {
            format!(
                "{:03X}{:02X}",
                (edge % 32) << 6 | (32 + edge / 32),
                edge % 3
            )
        })
        .collect();
    bytes(&format!(
        "{header:014X} {} {}",
        tasks.concat(),
        edges.concat()
    ))
}

#[test]
fn what_is_allocated_is_long_enough() {
    let graph = largest_desk();
    assert_eq!(graph.len(), 807);
    assert_eq!(resync::figures(&graph).unwrap().edges, 256);
    assert_eq!(resync::least_delays(&graph).unwrap().rows().len(), 64);
    let timetable = resync::timetable(&graph, 64).unwrap();
    assert_eq!((timetable.turns().len(), timetable.tasks()), (64, 64));
    assert!(timetable.start(64, 63).is_some());
    assert!(!resync::plan(&graph).unwrap().edges.is_empty());
    let redundant = resync::redundant(&graph).unwrap();
    assert_eq!(redundant.places().count(), redundant.count());
}

#[test]
fn refused_graphs() {
    let cut = desk()[..24].to_vec();
    let table = [
        (vec![], 1, 0, Cause::FileWriter),
        (cut, 1, 0, Cause::FileWriter),
        (
            graph("1040180180000C", TASKS, EDGES),
            2,
            0,
            Cause::FileWriter,
        ),
        (
            graph("0810180180000C", TASKS, EDGES),
            3,
            0,
            Cause::FileWriter,
        ),
        (
            graph(HEADER, TASKS, "00200 04300 00300 00"),
            4,
            0,
            Cause::FileWriter,
        ),
        (
            graph(HEADER, "00002 00003 10001 10000", EDGES),
            5,
            3,
            Cause::FileWriter,
        ),
        (
            graph("0840180200000C", TASKS, EDGES),
            6,
            0,
            Cause::FileWriter,
        ),
        (
            graph(HEADER, TASKS, "00200 04400 00300"),
            6,
            2,
            Cause::FileWriter,
        ),
        (
            graph(HEADER, TASKS, "00200 04000 00300"),
            7,
            2,
            Cause::FileWriter,
        ),
        (
            graph(HEADER, TASKS, "00200 04300 00200"),
            8,
            3,
            Cause::FileWriter,
        ),
        (
            graph(HEADER, TASKS, "00200 04300 0C000"),
            9,
            0,
            Cause::ScheduleMaker,
        ),
        (
            graph(HEADER, TASKS, "08000 04300 00300"),
            10,
            0,
            Cause::ScheduleMaker,
        ),
        (
            graph(HEADER, TASKS, "00201 04301 00301"),
            11,
            0,
            Cause::ScheduleMaker,
        ),
        (desk_with_bound(8), 12, 0, Cause::ScheduleMaker),
    ];
    for (graph, number, place, cause) in table {
        let expected = (Refused::Graph, number, place, 0, 0);
        assert_eq!(numbers(resync::figures(&graph)), expected);
        assert_eq!(numbers(resync::least_delays(&graph)), expected);
        assert_eq!(numbers(resync::redundant(&graph)), expected);
        assert_eq!(numbers(resync::timetable(&graph, 1)), expected);
        assert_eq!(numbers(resync::plan(&graph)), expected);
        for proposal in [proposal(), vec![], bytes("10")] {
            assert_eq!(numbers(resync::verdict(&graph, &proposal)), expected);
        }
        assert_eq!(resync::figures(&graph).unwrap_err().cause(), cause);
    }
}

#[test]
fn refused_proposals() {
    let table = [
        ("", 1, 0, Cause::FileWriter),
        ("1004 04200 0", 2, 0, Cause::FileWriter),
        ("0C04 04200 0", 3, 0, Cause::FileWriter),
        ("0804 04200 000", 4, 0, Cause::FileWriter),
        ("0805 04200 0", 4, 0, Cause::FileWriter),
        ("0804 04400 0", 6, 1, Cause::FileWriter),
        ("0808 04200 04200", 8, 2, Cause::FileWriter),
        ("0804 04000 0", 13, 1, Cause::ProposalMaker),
        ("080C 00200 04300 0C001 0", 13, 1, Cause::ProposalMaker),
        ("0810 00200 08300 04300 00101", 13, 2, Cause::ProposalMaker),
        ("0800", 14, 1, Cause::ProposalMaker),
        ("0804 00200 0", 14, 2, Cause::ProposalMaker),
        ("0804 04201 0", 14, 1, Cause::ProposalMaker),
    ];
    for (proposal, number, place, cause) in table {
        let answer = resync::verdict(&desk(), &bytes(proposal));
        assert_eq!(numbers(answer), (Refused::Proposal, number, place, 0, 0));
        assert_eq!(answer.unwrap_err().cause(), cause);
    }

    let late = resync::verdict(&desk_with_bound(9), &proposal());
    assert_eq!(numbers(late), (Refused::Proposal, 15, 0, 10, -1));
    let words = late.unwrap_err().to_string();
    assert_eq!(words, "proposal refused: late, latency 10, margin -1 (15)");
}

#[test]
fn refused_calls() {
    let short = (Refused::Call, 16, 0, 0, 0);
    let mut table = [7; 15];
    assert_eq!(
        numbers(resync::least_delays_into(&desk(), &mut table)),
        short
    );
    assert_eq!(table, [7; 15]);
    let mut starts = [7; 7];
    assert_eq!(
        numbers(resync::timetable_into(&desk(), 2, &mut starts)),
        short
    );
    assert_eq!(starts, [7; 7]);
    let mut edges = [edge(9, 9, 9); 2];
    assert_eq!(numbers(resync::plan_into(&desk(), &mut edges)), short);
    assert_eq!(edges, [edge(9, 9, 9); 2]);
    assert_eq!(numbers(resync::plan_into(&desk(), &mut [])), short);

    // Turns are judged before the graph.
    for turns in [0, 65, usize::MAX] {
        for graph in [desk(), vec![]] {
            let answer = resync::timetable(&graph, turns);
            assert_eq!(numbers(answer.clone()), (Refused::Call, 17, 0, 0, 0));
            assert_eq!(answer.unwrap_err().cause(), Cause::Caller);
        }
    }
}
