//! The proved checker for the schedules of multi-processor audio desks, with Rust's types.
//!
//! # What it is about
//!
//! On such a desk each processor runs its *tasks* in a fixed order, turn after turn, and waits for other processors through flags in
//! shared memory. Every wait costs bus traffic. This crate answers which waits are needed at all, and whether others may stand in their
//! place without an order being lost under any timing, and without the first output ending too late.
//!
//! - An *edge* from task a to task b of *delay* d says: turn k of b starts no earlier than turn k − d of a ends. Turns count from 1.
//! - *Processor edges* follow from the order of the tasks on each processor. *Synchronization edges*, the waits, stand in the graph's
//!   file; their *places* count from 1. One is *feedback* if it lies on a cycle, otherwise *feedforward*.
//! - The *latency* is when the output's first turn ends, if tasks start as early as allowed and take their estimated times. The *bound*
//!   is the most that the user allows; the *margin* is bound less latency.
//! - A *proposal* is a list of synchronization edges that are to replace the graph's feedforward ones. What comes out is its *result*.
//!
//! | Call | Answer |
//! |---|---|
//! | [`figures`] | number of tasks, number of edges, latency |
//! | [`least_delays`] | the smallest sum of delays over the paths from each task to each |
//! | [`redundant`] | the waits whose order the others enforce anyway |
//! | [`timetable`] | the earliest start of each task in each turn |
//! | [`verdict`] | whether a proposal may be used: latency and margin of its result, or why not |
//! | [`plan`] | a list of waits, at most as many as before, that the verdict accepts |
//!
//! Every call takes the bytes of a graph file, whatever they are, and judges them first; no bytes make it fail to end, and none make it
//! panic. What it cannot answer it refuses, in numbers and in words: [`Refusal`].
//!
//! # Example
//!
//! Tasks 0 and 1 run on processor 0, tasks 2 and 3 on processor 1. Waits, by place: 1 is 0→2, 2 is 1→3, 3 is 0→3. The proposal
//! has one wait in place of the three.
//!
//! ```
//! let graph = [
//!     0x08, 0x40, 0x18, 0x01, 0x80, 0x00, 0x0C, // 4 tasks, 3 edges, input 0, output 3, bound 12
//!     0x00, 0x00, 0x20, 0x00, 0x03, 0x10, 0x00, 0x11, 0x00, 0x04, // processors and times
//!     0x00, 0x20, 0x00, 0x43, 0x00, 0x00, 0x30, 0x00, // 0→2, 1→3, 0→3
//! ];
//! let proposal = [0x08, 0x04, 0x04, 0x20, 0x00]; // 1→2
//!
//! let figures = resync::figures(&graph)?;
//! assert_eq!((figures.tasks, figures.edges, figures.latency), (4, 3, 9));
//!
//! let redundant = resync::redundant(&graph)?;
//! assert_eq!(redundant.places().collect::<Vec<_>>(), [3]);
//!
//! let accepted = resync::verdict(&graph, &proposal)?;
//! println!("accepted: latency {}, margin {}", accepted.latency, accepted.margin);
//! assert_eq!((accepted.latency, accepted.margin), (10, 2));
//!
//! // The proposal of 0→2 alone: task 3 no longer waits for task 1.
//! let refusal = resync::verdict(&graph, &[0x08, 0x04, 0x00, 0x20, 0x00]).unwrap_err();
//! assert_eq!(refusal.to_string(), "proposal refused: edge 2's order is lost (14)");
//! assert_eq!(refusal.cause().to_string(), "whoever made the proposal");
//! # Ok::<(), resync::Refusal>(())
//! ```
//!
//! # The two files
//!
//! Fields are packed without gaps, most significant bit first; zero bits fill the last byte. Tasks count from 0.
//!
//! - Graph: version 5 bits (value 1), tasks 7, edges 9, latency input 6, latency output 6, bound 23. Then each task: processor 4,
//!   time 16. Then each edge: source 6, sink 6, delay 8.
//! - Proposal: version 5 bits (value 1), edges 9, two zero bits, then edges as above.
//!
//! The command `desk` of this workspace makes both from a readable description, and back.
//!
//! # Linking
//!
//! The calls come from a static library for x86-64 that is proved and built with the Rattle kit. Run `./build` at the repository's root
//! once: it puts `target/staticlib/libresync_c.a` in place, where this crate's build script finds it and links it. Nothing else is needed,
//! and a program that depends on this crate has nothing to set. The proofs speak of the library; this crate only gives its answers Rust's
//! types, and its one file with `unsafe`, [`raw`], declares the library's functions.

#![deny(missing_docs)]
#![deny(unsafe_code)]
#![warn(clippy::all)]

mod answers;
// The fields of its records are documented with the answers.
#[allow(missing_docs, unsafe_code)]
pub mod raw;
mod refusal;

pub use answers::{Accepted, Figures, LeastDelays, Plan, PlanFigures, Redundant, Timetable};
/// `sink` waits for `source`, both task numbers: for its turn `delay` turns before.
#[doc(inline)]
pub use raw::Edge;
pub use refusal::{Cause, Refusal, Refused};

/// The most tasks that a graph has.
pub const MOST_TASKS: usize = 64;
/// The most edges that a file has, and so the most records that [`plan_into`] asks for.
pub const MOST_EDGES: usize = 256;
/// The most turns that [`timetable`] gives.
pub const MOST_TURNS: usize = 64;
/// Stands in a table of least delays where no path leads from the one task to the other.
pub const NO_PATH: u16 = u16::MAX;

/// Number of tasks, number of edges and latency of a graph.
pub fn figures(graph: &[u8]) -> Result<Figures, Refusal> {
    let answer = raw::figures(graph);
    refusal::of_graph(answer.refusal)?;
    Ok(Figures {
        tasks: answer.tasks as usize,
        edges: answer.edges as usize,
        latency: answer.latency,
    })
}

/// The least delay from each task to each: the smallest sum of delays over the paths of one or more edges.
///
/// ```
/// # let graph = [8, 64, 24, 1, 128, 0, 12, 0, 0, 32, 0, 3, 16, 0, 17, 0, 4, 0, 32, 0, 67, 0, 0, 48, 0];
/// let delays = resync::least_delays(&graph)?;
/// assert_eq!(delays.get(0, 3), Some(0));
/// assert_eq!(delays.get(3, 0), None); // no path leads back
/// # Ok::<(), resync::Refusal>(())
/// ```
pub fn least_delays(graph: &[u8]) -> Result<LeastDelays, Refusal> {
    let tasks = figures(graph)?.tasks;
    let mut table = vec![0; tasks * tasks];
    least_delays_into(graph, &mut table)?;
    Ok(LeastDelays { tasks, table })
}

/// As [`least_delays`], written to the front of a lent list, row by row, [`NO_PATH`] for none: the delay from a to b stands at
/// a × tasks + b. The list needs tasks × tasks elements, at most [`MOST_TASKS`] squared, or the call is refused (16). Elements past
/// them keep their contents; if the call is refused, all do.
pub fn least_delays_into(graph: &[u8], table: &mut [u16]) -> Result<(), Refusal> {
    refusal::of_graph(raw::least_delays(graph, table))
}

/// The redundant waits, feedforward and feedback: those between whose ends the least delay without them is at most their own.
pub fn redundant(graph: &[u8]) -> Result<Redundant, Refusal> {
    let answer = raw::redundant(graph);
    refusal::of_graph(answer.refusal)?;
    Ok(Redundant {
        words: answer.words,
        count: answer.count as usize,
    })
}

/// The earliest start of each task in each of the first turns, if every task takes its estimated time. Turns are 1 to 64, or the
/// call is refused (17).
///
/// ```
/// # let graph = [8, 64, 24, 1, 128, 0, 12, 0, 0, 32, 0, 3, 16, 0, 17, 0, 4, 0, 32, 0, 67, 0, 0, 48, 0];
/// let timetable = resync::timetable(&graph, 2)?;
/// assert_eq!(timetable.start(1, 3), Some(5));
/// assert_eq!(timetable.start(2, 3), Some(10));
/// # Ok::<(), resync::Refusal>(())
/// ```
pub fn timetable(graph: &[u8], turns: usize) -> Result<Timetable, Refusal> {
    // The largest list, and the number of tasks afterwards: turns are judged before the graph.
    let mut starts = vec![0; MOST_TASKS * turns.min(MOST_TURNS)];
    timetable_into(graph, turns, &mut starts)?;
    let tasks = figures(graph)?.tasks;
    starts.truncate(tasks * turns);
    Ok(Timetable { tasks, starts })
}

/// As [`timetable`], written to the front of a lent list, turn by turn, tasks in order: turn k of task a stands at
/// (k − 1) × tasks + a. The list needs tasks × turns elements, at most [`MOST_TASKS`] × [`MOST_TURNS`], or the call is refused (16).
/// Elements past them keep their contents; if the call is refused, all do.
pub fn timetable_into(graph: &[u8], turns: usize, starts: &mut [u32]) -> Result<(), Refusal> {
    refusal::of_graph(raw::timetable(graph, turns as u64, starts))
}

/// The verdict on a proposal: accepted, with latency and margin of its result, or refused.
///
/// What is accepted enforces every order of the graph, in every turn and whatever time each task takes, never stalls, has the same cycles,
/// and its first output ends by the bound if no task's first turn exceeds its estimate.
pub fn verdict(graph: &[u8], proposal: &[u8]) -> Result<Accepted, Refusal> {
    let answer = raw::verdict(graph, proposal);
    refusal::of_verdict(answer.refusal, graph)?;
    Ok(Accepted {
        latency: answer.latency,
        margin: answer.margin,
    })
}

/// The tool's own plan: what is to stand in place of the graph's feedforward edges, at most as many, and accepted as a proposal.
///
/// ```
/// # let graph = [8, 64, 24, 1, 128, 0, 12, 0, 0, 32, 0, 3, 16, 0, 17, 0, 4, 0, 32, 0, 67, 0, 0, 48, 0];
/// let plan = resync::plan(&graph)?;
/// assert_eq!(plan.edges, [resync::Edge { source: 1, sink: 2, delay: 0 }]);
/// assert_eq!((plan.steps, plan.latency), (1, 10));
/// # Ok::<(), resync::Refusal>(())
/// ```
pub fn plan(graph: &[u8]) -> Result<Plan, Refusal> {
    let mut edges = [Edge::default(); MOST_EDGES];
    let figures = plan_into(graph, &mut edges)?;
    Ok(Plan {
        edges: edges[..figures.length].to_vec(),
        steps: figures.steps,
        latency: figures.latency,
    })
}

/// As [`plan`], written to the front of a lent list. The list needs as many records as the graph has edges, at most [`MOST_EDGES`],
/// even if fewer are written, or the call is refused (16). Records past the plan keep their contents; if the call is refused, all do.
pub fn plan_into(graph: &[u8], edges: &mut [Edge]) -> Result<PlanFigures, Refusal> {
    let answer = raw::plan(graph, edges);
    refusal::of_graph(answer.refusal)?;
    Ok(PlanFigures {
        length: answer.length as usize,
        steps: answer.steps as usize,
        latency: answer.latency,
    })
}
