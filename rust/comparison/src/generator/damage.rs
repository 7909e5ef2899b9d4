//! Ways to damage files.

use super::Generator;
use checker::files::{bytes_for, Edge, GraphFields, ProposalFields};

/// A name, and what does the damage.
pub type GraphDamage = (&'static str, fn(&mut Generator, &mut GraphFields));
pub type ProposalDamage = (&'static str, fn(&mut Generator, &mut ProposalFields, usize));
pub type ByteDamage = (&'static str, fn(&mut Generator, &mut Vec<u8>));

/// Ways to damage the fields of a graph. Where there is nothing to damage in that way, the fields stay right.
pub const GRAPH_DAMAGES: [GraphDamage; 9] = [
    ("header field overwritten", |g, f| match g.between(0, 5) {
        0 => f.version = g.between(0, 31),
        1 => f.task_count = number_near(g, f.task_count, &[0, 1, 2, 64, 65, 127]),
        2 => f.edge_count = number_near(g, f.edge_count, &[0, 1, 256, 257, 511]),
        3 => f.input = number_near(g, f.task_count, &[0, 63]),
        4 => f.output = number_near(g, f.task_count, &[0, 63]),
        _ => f.bound = g.between(0, (1 << 23) - 1),
    }),
    ("an edge's end out of range", |g, f| {
        if f.task_count < 64 && !f.edges.is_empty() {
            let place = g.between(0, f.edges.len() - 1);
            let end = outside(g, f.task_count);
            if g.once_in(2) {
                f.edges[place].source = end;
            } else {
                f.edges[place].sink = end;
            }
        }
    }),
    ("an edge copied onto a later one", |g, f| {
        copy_onto_later(g, &mut f.edges);
    }),
    ("an edge within one processor", |g, f| {
        if !f.edges.is_empty() {
            let place = g.between(0, f.edges.len() - 1);
            let processor = f.tasks[f.edges[place].source % f.tasks.len()].processor;
            let beside: Vec<usize> = (0..f.tasks.len())
                .filter(|&task| f.tasks[task].processor == processor)
                .collect();
            f.edges[place].sink = g.pick(&beside);
        }
    }),
    ("a task put on another processor", |g, f| {
        let task = g.between(0, f.tasks.len() - 1);
        f.tasks[task].processor = g.between(0, 15);
    }),
    ("a time of 0", |g, f| {
        let task = g.between(0, f.tasks.len() - 1);
        f.tasks[task].time = 0;
    }),
    ("a filling bit set", |g, f| f.filling = g.between(1, 15)),
    ("header number out of range", |g, f| {
        if f.task_count < 64 {
            let end = outside(g, f.task_count);
            if g.once_in(2) {
                f.input = end;
            } else {
                f.output = end;
            }
        }
    }),
    // Records of tasks and edges have the same length, so only what they hold can be wrong then.
    ("a task counted as an edge, or the other way", |g, f| {
        if g.once_in(2) {
            f.task_count = f.task_count.wrapping_sub(1);
            f.edge_count = f.edge_count.wrapping_add(1);
        } else {
            f.task_count = f.task_count.wrapping_add(1);
            f.edge_count = f.edge_count.wrapping_sub(1);
        }
    }),
];

/// Ways to damage the fields of a proposal for a graph of so many tasks.
pub const PROPOSAL_DAMAGES: [ProposalDamage; 5] = [
    ("header field overwritten", |g, f, _| {
        match g.between(0, 2) {
            0 => f.version = g.between(0, 31),
            1 => f.edge_count = number_near(g, f.edge_count, &[0, 1, 256, 257, 511]),
            _ => f.two_zero_bits = g.between(0, 3),
        }
    }),
    ("an edge's end out of range", |g, f, tasks| {
        if tasks < 64 && !f.edges.is_empty() {
            let place = g.between(0, f.edges.len() - 1);
            let end = outside(g, tasks);
            if g.once_in(2) {
                f.edges[place].source = end;
            } else {
                f.edges[place].sink = end;
            }
        }
    }),
    ("an edge copied onto a later one", |g, f, _| {
        copy_onto_later(g, &mut f.edges);
    }),
    ("one of the two zero bits set", |g, f, _| {
        f.two_zero_bits = g.between(1, 3);
    }),
    ("a filling bit set", |g, f, _| f.filling = g.between(1, 15)),
];

/// Ways to damage the bytes of either file.
pub const BYTE_DAMAGES: [ByteDamage; 7] = [
    ("1 to 3 bits flipped", |g, file| {
        for _ in 0..g.between(1, 3) {
            if !file.is_empty() {
                let bit = g.between(0, 8 * file.len() - 1);
                flip(file, bit);
            }
        }
    }),
    ("a byte changed", |g, file| {
        if !file.is_empty() {
            let place = g.between(0, file.len() - 1);
            file[place] = g.between(0, 255) as u8;
        }
    }),
    ("cut by 1 to 3 bytes", |g, file| {
        file.truncate(file.len().saturating_sub(g.between(1, 3)));
    }),
    ("cut anywhere", |g, file| {
        file.truncate(g.between(0, file.len()));
    }),
    ("1 to 3 zero bytes more", |g, file| {
        file.resize(file.len() + g.between(1, 3), 0);
    }),
    ("1 to 3 bytes more", |g, file| {
        let more = g.between(1, 3);
        file.extend(g.bytes(more));
    }),
    ("thousands of bytes more", |g, file| {
        let more = g.between(1000, 5000);
        file.extend(g.bytes(more));
    }),
];

/// Rougher ways to damage the bytes of either file.
pub const ROUGH_DAMAGES: [ByteDamage; 9] = [
    ("4 to 40 bits flipped", |g, file| {
        for _ in 0..g.between(4, 40) {
            if !file.is_empty() {
                let bit = g.between(0, 8 * file.len() - 1);
                flip(file, bit);
            }
        }
    }),
    ("a bit of the header flipped", |g, file| {
        let bit = g.between(0, 55);
        if bit / 8 < file.len() {
            flip(file, bit);
        }
    }),
    ("bytes put in", |g, file| {
        let (at, more) = (g.between(0, file.len()), g.between(1, 9));
        file.splice(at..at, g.bytes(more));
    }),
    ("bytes taken out", |g, file| {
        let at = g.between(0, file.len());
        let end = file.len().min(at + g.between(1, 9));
        file.drain(at..end);
    }),
    ("a part copied to another place", |g, file| {
        let length = g.between(0, file.len().min(9));
        let (from, to) = (file.len() - length, file.len() - length);
        let (from, to) = (g.between(0, from), g.between(0, to));
        file.copy_within(from..from + length, to);
    }),
    // As a graph file has them; the length fits or does not.
    ("other counts of tasks and edges", |g, file| {
        let tasks = g.pick(&[0, 1, 2, 3, 4, 5, 8, 12, 63, 64, 65, 127]);
        let edges = g.pick(&[0, 1, 2, 3, 8, 20, 255, 256, 257, 511]);
        overwrite(file, 5, 7, tasks);
        overwrite(file, 12, 9, edges);
        if g.once_in(2) {
            file.resize(bytes_for(56 + 20 * (tasks + edges)), 0);
        }
    }),
    // As a proposal file has it; the length fits or does not.
    ("another count of edges", |g, file| {
        let edges = g.pick(&[0, 1, 2, 3, 8, 20, 255, 256, 257, 511]);
        overwrite(file, 5, 9, edges);
        overwrite(file, 14, 2, 0);
        if g.once_in(2) {
            file.resize(bytes_for(16 + 20 * edges), 0);
        }
    }),
    ("random bytes", |g, file| {
        let kept = g.pick(&[0, 1, 2, 7, 8, file.len() / 2]);
        file.truncate(kept);
        let length = g.between(0, 900);
        file.extend(g.bytes(length));
    }),
    ("very long", |g, file| {
        let length = match g.between(0, 99) {
            0 => 1 << 20,
            _ => g.between(1000, 20_000),
        };
        file.resize(length, g.pick(&[0, 1, 255]) as u8);
    }),
];

/// Writes a number into some bits of a file, counted from its front, as far as the file goes.
fn overwrite(file: &mut [u8], at: usize, width: usize, value: usize) {
    for place in 0..width {
        let bit = at + place;
        if bit / 8 < file.len() {
            let mask = 0x80 >> (bit % 8);
            if (value >> (width - 1 - place)) & 1 == 1 {
                file[bit / 8] |= mask;
            } else {
                file[bit / 8] &= !mask;
            }
        }
    }
}

/// A number beside the right one, one of those named, or any.
fn number_near(g: &mut Generator, right: usize, named: &[usize]) -> usize {
    match g.between(0, 3) {
        0 => right.wrapping_sub(1),
        1 => right.wrapping_add(1),
        2 => g.pick(named),
        _ => g.between(0, 511),
    }
}

/// A task number of 6 bits not below the count: the count itself, or any other.
fn outside(g: &mut Generator, task_count: usize) -> usize {
    if g.once_in(2) {
        task_count
    } else {
        g.between(task_count, 63)
    }
}

fn copy_onto_later(g: &mut Generator, edges: &mut [Edge]) {
    if edges.len() >= 2 {
        let later = g.between(1, edges.len() - 1);
        edges[later] = edges[g.between(0, later - 1)];
    }
}

/// Turns one bit of a file over, counted from its front.
pub fn flip(file: &mut [u8], bit: usize) {
    file[bit / 8] ^= 0x80 >> (bit % 8);
}
