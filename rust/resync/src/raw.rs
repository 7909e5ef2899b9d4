//! The calls as C has them: the records of `include/resync.h`, and the six functions behind safe ones that pass whole answers on.
//!
//! Nothing checks these declarations against the library but the tests, the sequence of the records' fields among it: keep them as its
//! source and `include/resync.h` have them.

use std::mem::{align_of, size_of};

/// Document 01's number, place, latency and margin of a refusal. Number 0: not refused.
#[repr(C)]
#[derive(Clone, Copy, Debug, Default, PartialEq, Eq)]
pub struct Refusal {
    pub number: u32,
    pub place: u32,
    pub latency: u32,
    pub margin: i32,
}

/// An edge as the plan's list has it.
#[repr(C)]
#[derive(Clone, Copy, Debug, Default, PartialEq, Eq)]
pub struct Edge {
    pub source: u8,
    pub sink: u8,
    pub delay: u8,
}

/// A graph's figures. If it is refused, everything but the refusal is 0.
#[repr(C)]
#[derive(Clone, Copy, Debug, Default, PartialEq, Eq)]
pub struct FiguresAnswer {
    pub refusal: Refusal,
    pub tasks: u32,
    /// Edges of the file, without the processor edges.
    pub edges: u32,
    pub latency: u32,
}

/// A graph's redundant edges. If it is refused, everything but the refusal is 0.
#[repr(C)]
#[derive(Clone, Copy, Debug, Default, PartialEq, Eq)]
pub struct RedundantAnswer {
    pub refusal: Refusal,
    /// 256 marks: edge 1 is the most significant bit of the first word.
    pub words: [u64; 4],
    /// How many marks are set.
    pub count: u32,
}

/// The verdict on a proposal: latency and margin of its result if it is accepted. If it is refused, everything but the refusal
/// is 0.
#[repr(C)]
#[derive(Clone, Copy, Debug, Default, PartialEq, Eq)]
pub struct VerdictAnswer {
    pub refusal: Refusal,
    pub latency: u32,
    /// The bound less the latency.
    pub margin: i32,
}

/// The plan's figures. If it is refused, everything but the refusal is 0.
#[repr(C)]
#[derive(Clone, Copy, Debug, Default, PartialEq, Eq)]
pub struct PlanAnswer {
    pub refusal: Refusal,
    /// How many records were written.
    pub length: u32,
    pub steps: u32,
    pub latency: u32,
}

// The records have no gaps: as many bytes as their fields, but for the redundant answer's last four, which align its words.
const _: () = assert!(size_of::<Refusal>() == 4 * 4 && align_of::<Refusal>() == 4);
const _: () = assert!(size_of::<Edge>() == 3 && align_of::<Edge>() == 1);
const _: () = assert!(size_of::<FiguresAnswer>() == 4 * 4 + 3 * 4);
const _: () = assert!(size_of::<RedundantAnswer>() == 4 * 4 + 4 * 8 + 4 + 4);
const _: () = assert!(size_of::<VerdictAnswer>() == 4 * 4 + 2 * 4);
const _: () = assert!(size_of::<PlanAnswer>() == 4 * 4 + 3 * 4);

extern "C" {
    fn resync_figures(graph: *const u8, graph_len: usize) -> FiguresAnswer;
    fn resync_least_delays(
        graph: *const u8,
        graph_len: usize,
        table: *mut u16,
        table_len: usize,
    ) -> Refusal;
    fn resync_redundant(graph: *const u8, graph_len: usize) -> RedundantAnswer;
    fn resync_timetable(
        graph: *const u8,
        graph_len: usize,
        turns: u64,
        starts: *mut u32,
        starts_len: usize,
    ) -> Refusal;
    fn resync_verdict(
        graph: *const u8,
        graph_len: usize,
        proposal: *const u8,
        proposal_len: usize,
    ) -> VerdictAnswer;
    fn resync_plan(
        graph: *const u8,
        graph_len: usize,
        edges: *mut Edge,
        edges_len: usize,
    ) -> PlanAnswer;
}

/// Tasks, edges and latency of a graph file.
pub fn figures(graph: &[u8]) -> FiguresAnswer {
    // SAFETY: pointer and length are those of a slice; the call keeps neither.
    unsafe { resync_figures(graph.as_ptr(), graph.len()) }
}

/// Writes the least delays of a graph file to the front of the table, row by row, 65,535 for none; nothing past them, and
/// nothing at all if refused.
pub fn least_delays(graph: &[u8], table: &mut [u16]) -> Refusal {
    // SAFETY: pointers and lengths are those of two slices, of which the second is lent for writing and so apart from
    // the first; the call keeps none.
    unsafe { resync_least_delays(graph.as_ptr(), graph.len(), table.as_mut_ptr(), table.len()) }
}

/// The redundant edges of a graph file.
pub fn redundant(graph: &[u8]) -> RedundantAnswer {
    // SAFETY: pointer and length are those of a slice; the call keeps neither.
    unsafe { resync_redundant(graph.as_ptr(), graph.len()) }
}

/// Writes the earliest starts at the estimated times to the front of the list, turn by turn, tasks in order; nothing past
/// them, and nothing at all if refused.
pub fn timetable(graph: &[u8], turns: u64, starts: &mut [u32]) -> Refusal {
    // SAFETY: pointers and lengths are those of two slices, of which the second is lent for writing and so apart from
    // the first; the call keeps none.
    unsafe {
        resync_timetable(
            graph.as_ptr(),
            graph.len(),
            turns,
            starts.as_mut_ptr(),
            starts.len(),
        )
    }
}

/// The verdict on a proposal file beside a graph file.
pub fn verdict(graph: &[u8], proposal: &[u8]) -> VerdictAnswer {
    // SAFETY: pointers and lengths are those of two slices, which are only read; the call keeps none.
    unsafe {
        resync_verdict(
            graph.as_ptr(),
            graph.len(),
            proposal.as_ptr(),
            proposal.len(),
        )
    }
}

/// Writes the plan of a graph file to the front of the list: the feedforward edges left, file sequence first, then added ones;
/// nothing past them, and nothing at all if refused.
pub fn plan(graph: &[u8], edges: &mut [Edge]) -> PlanAnswer {
    // SAFETY: pointers and lengths are those of two slices, of which the second is lent for writing and so apart from
    // the first; the call keeps none.
    unsafe { resync_plan(graph.as_ptr(), graph.len(), edges.as_mut_ptr(), edges.len()) }
}
