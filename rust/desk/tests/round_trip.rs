//! From description to files and back: nothing is lost.

mod example;
mod random;

use checker::files::Edge;
use desk::{Description, Files};
use example::EXAMPLE;
use random::Random;

const GRAPH: [u8; 25] = [
    0x08, 0x40, 0x18, 0x01, 0x80, 0x00, 0x0C, 0x00, 0x00, 0x20, 0x00, 0x03, 0x10, 0x00, 0x11, 0x00,
    0x04, 0x00, 0x20, 0x00, 0x43, 0x00, 0x00, 0x30, 0x00,
];
const PROPOSAL: [u8; 5] = [0x08, 0x04, 0x04, 0x20, 0x00];

fn parsed(text: &str) -> Description {
    text.parse()
        .unwrap_or_else(|mistake| panic!("{mistake} in\n{text}"))
}

/// Files to description to text to description to files.
fn goes_round(desk: &Description) {
    let files = desk.files();
    let read = Description::of(&files).expect("well-formed files");
    assert_eq!(read, *desk);
    let again = parsed(&read.to_string());
    assert_eq!(again, *desk);
    assert_eq!(again.files(), files);
}

#[test]
fn the_example_desk_has_document_01s_bytes() {
    let files = Files {
        graph: GRAPH.to_vec(),
        proposal: Some(PROPOSAL.to_vec()),
    };
    assert_eq!(parsed(EXAMPLE).files(), files);
    goes_round(&parsed(EXAMPLE));
}

#[test]
fn the_example_desk_is_printed() {
    let text = "\
bound 12
input t0
output t3

task t0 on 0 time 2
task t1 on 0 time 3
task t2 on 1 time 1
task t3 on 1 time 4

wait t0 -> t2             # 1
wait t1 -> t3             # 2
wait t0 -> t3             # 3

proposal
wait t1 -> t2             # 1
";
    assert_eq!(parsed(EXAMPLE).to_string(), text);
}

#[test]
fn the_format_is_told_with_the_example_desk() {
    let format = include_str!("../FORMAT.md");
    let text = format.split("```text\n").nth(1).expect("an example");
    let text = text.split("```").next().expect("its end");
    assert_eq!(parsed(text), parsed(EXAMPLE));
}

#[test]
fn numbers_names_comments_and_sequence() {
    let text = "\u{feff}# A comment\r
wait mic->3#no spaces needed\r
  task mic on 0 time 002
\ttask on 0 time 3   # no name
output 3\r
task on on 15 time 65535
task über-mix_2.b on 1 time 4
wait on -> 0 delay 255
bound 8388607
input mic
proposal # none proposed";
    let desk = parsed(text);
    let edge = |source, sink, delay| Edge {
        source,
        sink,
        delay,
    };
    assert_eq!(desk.graph.edges, [edge(0, 3, 0), edge(2, 0, 255)]);
    assert_eq!((desk.graph.input, desk.graph.output), (0, 3));
    assert_eq!(desk.graph.bound, 8_388_607);
    let tasks = desk.graph.tasks.iter();
    let tasks: Vec<_> = tasks.map(|task| (task.processor, task.time)).collect();
    assert_eq!(tasks, [(0, 2), (0, 3), (15, 65_535), (1, 4)]);
    assert_eq!(desk.proposal, Some(vec![]));
    goes_round(&desk);
}

#[test]
fn random_desks() {
    let mut random = Random(1);
    for _ in 0..2000 {
        let tasks = 2 + random.below(63);
        let edges = random.below(257);
        let proposed = match random.below(3) {
            0 => None,
            _ => Some(random.below(257)),
        };
        goes_round(&random.desk(tasks, edges, proposed));
    }
}

#[test]
fn largest_desks() {
    let mut random = Random(2);
    let mut largest = 0;
    for _ in 0..50 {
        let desk = random.desk(64, 256, Some(256));
        goes_round(&desk);
        let files = desk.files();
        let proposal = files.proposal.expect("a proposal");
        largest += usize::from((files.graph.len(), proposal.len()) == (807, 642));
    }
    assert!(largest > 25, "only {largest} have 256 waits in both lists");
}

#[test]
fn the_described_example_has_its_files() {
    let files = Files {
        graph: include_bytes!("../../../examples/described/graph.bin").to_vec(),
        proposal: Some(include_bytes!("../../../examples/described/proposal.bin").to_vec()),
    };
    let text = include_str!("../../../examples/described/desk.txt");
    assert_eq!(parsed(text).files(), files);
}

#[test]
fn malformed_files_get_their_refusal() {
    let told = |graph: &[u8], proposal: Option<&[u8]>| {
        let files = Files {
            graph: graph.to_vec(),
            proposal: proposal.map(<[u8]>::to_vec),
        };
        Description::of(&files).unwrap_err().to_string()
    };
    let changed = |byte: usize, value| {
        let mut graph = GRAPH;
        graph[byte] = value;
        graph
    };
    let table = [
        (told(&[], None), "graph.bin gets refusal 1: too few bytes"),
        (
            told(&changed(0, 0x10), None),
            "graph.bin gets refusal 2: the version is not 1",
        ),
        (
            told(&changed(1, 0x10), None),
            "graph.bin gets refusal 3: not 2 to 64 tasks, or over 256 waits",
        ),
        (
            told(&[0x08; 5000], None),
            "graph.bin gets refusal 3: not 2 to 64 tasks, or over 256 waits",
        ),
        (
            told(&changed(24, 1), None),
            "graph.bin gets refusal 4: too many bytes, or a filling bit that is not 0",
        ),
        (
            told(&changed(16, 0), None),
            "graph.bin gets refusal 5 at place 3: a task's time is 0",
        ),
        (
            told(&changed(3, 0x02), None),
            "graph.bin gets refusal 6 at place 0: no such task",
        ),
        (
            told(&changed(20, 0x40), None),
            "graph.bin gets refusal 7 at place 2: a wait within one processor",
        ),
        (
            told(&changed(23, 0x20), None),
            "graph.bin gets refusal 8 at place 3: an earlier wait again",
        ),
        (
            told(&GRAPH, Some(&[])),
            "proposal.bin gets refusal 1: too few bytes",
        ),
        (
            told(&GRAPH, Some(&[0x08, 0x04, 0x04, 0x40, 0x00])),
            "proposal.bin gets refusal 6 at place 1: no such task",
        ),
    ];
    for (told, expected) in table {
        assert_eq!(told, expected);
    }
}
