//! What several files of tests name: the example desk and proposal, a small graph, an edge in one line, a file in hexadecimal, a
//! file's bits flipped, lines printed.

use super::damage::flip;
use checker::files::{Edge, Graph, GraphFields, Task};
use std::io::Write;

/// Document 01's example desk.
pub const DESK: [u8; 25] = [
    0x08, 0x40, 0x18, 0x01, 0x80, 0x00, 0x0C, 0x00, 0x00, 0x20, 0x00, 0x03, 0x10, 0x00, 0x11, 0x00,
    0x04, 0x00, 0x20, 0x00, 0x43, 0x00, 0x00, 0x30, 0x00,
];

/// Document 01's example proposal: 1 to 2, delay 0.
pub const PROPOSAL: [u8; 5] = [0x08, 0x04, 0x04, 0x20, 0x00];

pub fn edge(source: usize, sink: usize, delay: usize) -> Edge {
    Edge {
        source,
        sink,
        delay,
    }
}

/// Tasks 0, 1 on processor 0; 2, 3 on 1; 4 on 2; 5 on 3; seven edges: 13 records, so the last byte has filling bits.
/// The input is 0. Only 1, 2 and 3 are joined to it by paths of delay 0.
pub fn small() -> GraphFields {
    let task = |processor, time| Task { processor, time };
    GraphFields::of(&Graph {
        tasks: vec![
            task(0, 5),
            task(0, 1),
            task(1, 2),
            task(1, 7),
            task(2, 3),
            task(3, 4),
        ],
        edges: vec![
            edge(0, 2, 0),
            edge(1, 3, 0),
            edge(4, 5, 0),
            edge(5, 4, 1),
            edge(4, 0, 2),
            edge(2, 4, 3),
            edge(5, 1, 255),
        ],
        input: 0,
        output: 3,
        bound: 14,
    })
}

/// The file in hexadecimal, as much of it as matters.
pub fn shown(file: &[u8]) -> String {
    let bytes: Vec<String> = file.iter().take(900).map(|b| format!("{b:02X}")).collect();
    format!("{} bytes: {}", file.len(), bytes.join(" "))
}

/// The file with every one or two of its bits flipped.
pub fn flipped<const LENGTH: usize>(file: [u8; LENGTH]) -> impl Iterator<Item = [u8; LENGTH]> {
    (0..8 * LENGTH).flat_map(move |one| {
        (one..8 * LENGTH).map(move |other| {
            let mut file = file;
            flip(&mut file, one);
            if other != one {
                flip(&mut file, other);
            }
            file
        })
    })
}

/// Straight to the output: what `println!` writes is shown of failing tests only.
pub fn print(lines: &str) {
    let _ = std::io::stdout().write_all(format!("{lines}\n").as_bytes());
}
