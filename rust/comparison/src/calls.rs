//! All six calls on one case, with the memory beside everything lent watched.

use crate::expected::{self, Judged};
use crate::generator::lists::{lend, lent, no_delay, no_edge, no_start, BESIDE};
use checker::proposals::Verdict;
use resync::raw::{self, Refusal};
use std::fmt::Debug;

pub const CALLS: [&str; 6] = [
    "figures",
    "least delays",
    "redundant",
    "timetable",
    "verdict",
    "plan",
];

/// Whether a call, by its place in [`CALLS`], can give a refusal.
pub fn gives(call: usize, number: usize) -> bool {
    match number {
        1..=12 => true,
        13..=15 => CALLS[call] == "verdict",
        16 => ["least delays", "timetable", "plan"].contains(&CALLS[call]),
        17 => CALLS[call] == "timetable",
        _ => false,
    }
}

/// What the calls are given: the files, the turns, and the lengths of the lists.
#[derive(Debug)]
pub struct Given<'a> {
    pub graph: &'a [u8],
    pub proposal: &'a [u8],
    pub turns: u64,
    pub table: usize,
    pub starts: usize,
    pub edges: usize,
}

/// What they hand over; of the lists what was written, nothing if refused.
#[derive(Debug)]
pub struct Handed {
    pub figures: raw::FiguresAnswer,
    pub least_delays: (Refusal, Vec<u16>),
    pub redundant: raw::RedundantAnswer,
    pub timetable: (Refusal, Vec<u32>),
    pub verdict: raw::VerdictAnswer,
    pub plan: (raw::PlanAnswer, Vec<raw::Edge>),
}

impl Handed {
    /// The refusals, in the sequence of [`CALLS`].
    pub fn refusals(&self) -> [Refusal; 6] {
        [
            self.figures.refusal,
            self.least_delays.0,
            self.redundant.refusal,
            self.timetable.0,
            self.verdict.refusal,
            self.plan.0.refusal,
        ]
    }
}

impl Given<'_> {
    /// Makes the calls. Nothing but the written part of a list may change, and nothing of it if the call is refused.
    pub fn call(&self) -> Handed {
        let figures = raw::figures(self.graph);
        let tasks = figures.tasks as usize;

        let (refusal, memory) = lend(self.table, no_delay, |list| {
            raw::least_delays(self.graph, list)
        });
        let length = if refusal.number == 0 {
            tasks * tasks
        } else {
            0
        };
        let least_delays = (refusal, written(&memory, length, self.table, no_delay));

        let (refusal, memory) = lend(self.starts, no_start, |list| {
            raw::timetable(self.graph, self.turns, list)
        });
        let length = match refusal.number {
            0 => tasks * self.turns as usize,
            _ => 0,
        };
        let timetable = (refusal, written(&memory, length, self.starts, no_start));

        let (answer, memory) = lend(self.edges, no_edge, |list| raw::plan(self.graph, list));
        let length = answer.length as usize;
        let plan = (answer, written(&memory, length, self.edges, no_edge));

        Handed {
            figures,
            least_delays,
            redundant: raw::redundant(self.graph),
            timetable,
            verdict: raw::verdict(self.graph, self.proposal),
            plan,
        }
    }

    /// The refusals that the calls must give, in the sequence of [`CALLS`], by what the checker makes of the files.
    pub fn refusals(&self, graph: &Judged, verdict: &Verdict) -> [Refusal; 6] {
        [
            expected::of_graph(graph),
            expected::least_delays(graph, self.table),
            expected::of_graph(graph),
            expected::timetable(graph, self.turns, self.starts),
            expected::verdict(verdict).refusal,
            expected::plan_refusal(graph, self.edges),
        ]
    }
}

/// The written front of a lent list, from what [`lend`] returned. Everything else must hold what it held.
fn written<T: Copy + Debug + PartialEq>(
    memory: &[T],
    length: usize,
    room: usize,
    pattern: impl Fn(usize) -> T,
) -> Vec<T> {
    let front = &memory[BESIDE..BESIDE + length];
    assert!(length <= room, "{length} written of {room}");
    let kept = memory == lent(room, pattern, front);
    assert!(kept, "a list of {room}, {length} written: {memory:?}");
    front.to_vec()
}

/// How often each call gave each refusal; entry 0 counts those not refused.
#[derive(Default)]
pub struct Refusals {
    reached: [[usize; 18]; 6],
}

impl Refusals {
    pub fn count(&mut self, refusals: &[Refusal; 6]) {
        for (call, refusal) in refusals.iter().enumerate() {
            self.count_one(call, refusal);
        }
    }

    /// Counts one call, by its place in [`CALLS`].
    pub fn count_one(&mut self, call: usize, refusal: &Refusal) {
        self.reached[call][refusal.number as usize] += 1;
    }

    pub fn calls(&self) -> usize {
        self.reached.iter().flatten().sum()
    }

    /// How often a call gave a refusal.
    pub fn of(&self, call: usize, number: usize) -> usize {
        self.reached[call][number]
    }

    /// A line for each number: all calls together, then call by call.
    pub fn lines(&self) -> String {
        let mut lines = String::new();
        for number in 0..18 {
            let counts = self.reached.iter().map(|reached| reached[number]);
            let total: usize = counts.clone().sum();
            match number {
                0 => lines += &format!("  not refused: {total}"),
                _ => lines += &format!("  refusal {number}: {total}"),
            }
            let by_call = CALLS.iter().zip(counts).filter(|(_, count)| *count > 0);
            let by_call: Vec<String> = by_call
                .map(|(call, count)| format!("{call} {count}"))
                .collect();
            lines += &format!(" ({})\n", by_call.join(", "));
        }
        lines
    }
}

#[cfg(test)]
mod tests {
    use super::*;

    #[test]
    fn every_change_past_the_written_part_is_seen() {
        let (room, length) = (5, 3);
        for changed in 0..BESIDE + room + BESIDE {
            let (_, mut memory) = lend(room, |index| index, |list| list[..length].fill(77));
            memory[changed] = 99;
            let of_written = (BESIDE..BESIDE + length).contains(&changed);
            let seen = std::panic::catch_unwind(|| written(&memory, length, room, |index| index));
            assert_eq!(seen.is_err(), !of_written);
        }
    }
}
