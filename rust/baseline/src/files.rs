//! The two files: records of 20 bits behind a header, and refusals 1 to 8.

use crate::refuse;
use resync::raw::Refusal;

pub const MOST_TASKS: usize = 64;
pub const MOST_EDGES: usize = 256;

/// An edge as its 20 bits in the file: source 6, sink 6, delay 8.
#[derive(Clone, Copy, Default, PartialEq, Eq)]
pub struct Arc(pub u32);

impl Arc {
    pub fn undelayed(source: usize, sink: usize) -> Arc {
        Arc((source << 14 | sink << 8) as u32)
    }

    pub fn source(self) -> usize {
        (self.0 >> 14 & 63) as usize
    }

    pub fn sink(self) -> usize {
        (self.0 >> 8 & 63) as usize
    }

    pub fn delay(self) -> usize {
        (self.0 & 255) as usize
    }
}

/// A graph file's fields. Entries past the counts are 0.
pub struct Fields {
    pub tasks: usize,
    pub edges: usize,
    pub input: usize,
    pub output: usize,
    pub bound: u32,
    pub processor: [u8; MOST_TASKS],
    pub time: [u32; MOST_TASKS],
    pub arcs: [Arc; MOST_EDGES],
}

impl Fields {
    pub fn new() -> Fields {
        Fields {
            tasks: 0,
            edges: 0,
            input: 0,
            output: 0,
            bound: 0,
            processor: [0; MOST_TASKS],
            time: [0; MOST_TASKS],
            arcs: [Arc(0); MOST_EDGES],
        }
    }
}

/// Reads a graph file into new fields and judges it up to refusal 8.
#[inline(always)]
pub fn read_graph(file: &[u8], fields: &mut Fields) -> Result<(), Refusal> {
    if file.len() < 7 {
        return refuse(1, 0);
    }
    let (header, records) = file.split_at(7);
    let mut word = [0; 8];
    word[..7].copy_from_slice(header);
    let header = u64::from_be_bytes(word) >> 8;
    let (tasks, edges) = ((header >> 44 & 127) as usize, (header >> 35 & 511) as usize);
    if header >> 51 != 1 {
        return refuse(2, 0);
    }
    if !(2..=MOST_TASKS).contains(&tasks) || edges > MOST_EDGES {
        return refuse(3, 0);
    }
    let filling = judge_length(records, tasks + edges)?;
    if filling != 0 {
        return refuse(4, 0);
    }
    let (input, output) = ((header >> 29 & 63) as usize, (header >> 23 & 63) as usize);
    if input >= tasks || output >= tasks {
        return refuse(6, 0);
    }

    (fields.tasks, fields.edges) = (tasks, edges);
    (fields.input, fields.output) = (input, output);
    fields.bound = (header & 0x7F_FFFF) as u32;
    read_tasks(fields, records)?;
    read_records(records, tasks, &mut fields.arcs[..edges]);
    judge_ends(fields)?;
    judge_equal(&fields.arcs[..edges])
}

/// Reads a proposal file for a graph of so many tasks into the list, and judges it up to refusal 8. Returns its number of edges.
pub fn read_proposal(
    file: &[u8],
    tasks: usize,
    arcs: &mut [Arc; MOST_EDGES],
) -> Result<usize, Refusal> {
    if file.len() < 2 {
        return refuse(1, 0);
    }
    let (header, records) = file.split_at(2);
    let header = u16::from_be_bytes([header[0], header[1]]);
    let edges = (header >> 2 & 511) as usize;
    if header >> 11 != 1 {
        return refuse(2, 0);
    }
    if edges > MOST_EDGES {
        return refuse(3, 0);
    }
    let filling = judge_length(records, edges)?;
    if header & 3 != 0 || filling != 0 {
        return refuse(4, 0);
    }
    let arcs = &mut arcs[..edges];
    read_records(records, 0, arcs);
    let outside = |arc: &Arc| arc.source() >= tasks || arc.sink() >= tasks;
    if let Some(place) = arcs.iter().position(outside) {
        return refuse(6, place + 1);
    }
    judge_equal(arcs)?;
    Ok(edges)
}

/// Refusals 1 and 4 by the length behind the header. Returns the filling bits.
fn judge_length(records: &[u8], count: usize) -> Result<u8, Refusal> {
    let needed = (count * 20 + 7) / 8;
    if records.len() < needed {
        return refuse(1, 0);
    }
    if records.len() > needed {
        return refuse(4, 0);
    }
    match records.last() {
        Some(last) if count % 2 == 1 => Ok(last & 15),
        _ => Ok(0),
    }
}

/// Two records, which take five bytes.
#[inline(always)]
fn pair(bytes: &[u8]) -> (u32, u32) {
    let front = u32::from_be_bytes([bytes[0], bytes[1], bytes[2], bytes[3]]);
    (front >> 12, (front << 8 | bytes[4] as u32) & 0xF_FFFF)
}

/// The last record of an odd number, in three bytes with the filling bits.
#[inline(always)]
fn lone(bytes: &[u8]) -> u32 {
    u32::from_be_bytes([0, bytes[0], bytes[1], bytes[2]]) >> 4
}

fn read_tasks(fields: &mut Fields, records: &[u8]) -> Result<(), Refusal> {
    let mut put = |task: usize, record: u32| {
        fields.processor[task] = (record >> 16) as u8;
        fields.time[task] = record & 0xFFFF;
    };
    let bytes = &records[..(fields.tasks / 2) * 5];
    for (at, five) in bytes.chunks_exact(5).enumerate().take(MOST_TASKS / 2) {
        let (one, other) = pair(five);
        put(2 * at, one);
        put(2 * at + 1, other);
    }
    if fields.tasks % 2 == 1 {
        put(fields.tasks - 1, lone(&records[bytes.len()..]));
    }
    match fields.time[..fields.tasks]
        .iter()
        .position(|&time| time == 0)
    {
        Some(task) => refuse(5, task),
        None => Ok(()),
    }
}

/// Reads edges that stand behind so many other records.
fn read_records(records: &[u8], before: usize, arcs: &mut [Arc]) {
    let mut arcs = arcs;
    let mut records = &records[(before / 2) * 5..];
    if before % 2 == 1 {
        let (first, others) = match arcs.split_first_mut() {
            Some(parts) => parts,
            None => return,
        };
        let bytes = [records[2], records[3], records[4]];
        first.0 = u32::from_be_bytes([0, bytes[0], bytes[1], bytes[2]]) & 0xF_FFFF;
        (arcs, records) = (others, &records[5..]);
    }
    let mut pairs = arcs.chunks_exact_mut(2);
    let mut fives = records.chunks_exact(5);
    for (two, five) in (&mut pairs).zip(&mut fives) {
        (two[0].0, two[1].0) = pair(five);
    }
    if let [last] = pairs.into_remainder() {
        last.0 = lone(fives.remainder());
    }
}

/// Refusals 6 and 7 of the edges.
fn judge_ends(fields: &Fields) -> Result<(), Refusal> {
    let processor = |task: usize| fields.processor[task];
    let arcs = &fields.arcs[..fields.edges];
    let mut wrong = false;
    for arc in arcs {
        let (source, sink) = (arc.source(), arc.sink());
        wrong |= source.max(sink) >= fields.tasks;
        wrong |= processor(source) == processor(sink);
    }
    if !wrong {
        return Ok(());
    }
    for (at, arc) in arcs.iter().enumerate() {
        if arc.source().max(arc.sink()) >= fields.tasks {
            return refuse(6, at + 1);
        }
        if processor(arc.source()) == processor(arc.sink()) {
            return refuse(7, at + 1);
        }
    }
    Ok(())
}

/// Refusal 8.
fn judge_equal(arcs: &[Arc]) -> Result<(), Refusal> {
    let found = if arcs.len() <= 32 {
        (1..arcs.len()).find(|&at| {
            arcs[..at]
                .iter()
                .fold(false, |any, arc| any | (*arc == arcs[at]))
        })
    } else {
        first_repeated(arcs)
    };
    match found {
        Some(at) => refuse(8, at + 1),
        None => Ok(()),
    }
}

/// Looks for equal edges by hashing: a slot holds a place, from 1, and a full one passes on to the next.
#[inline(never)]
fn first_repeated(arcs: &[Arc]) -> Option<usize> {
    const SLOTS: usize = 4096;
    let mut slots = [0_u16; SLOTS];
    for (at, arc) in arcs.iter().enumerate() {
        let mut slot = (arc.0.wrapping_mul(0x9E37_79B1) >> 20) as usize;
        while slots[slot % SLOTS] != 0 {
            if arcs[slots[slot % SLOTS] as usize - 1] == *arc {
                return Some(at);
            }
            slot += 1;
        }
        slots[slot % SLOTS] = at as u16 + 1;
    }
    None
}
