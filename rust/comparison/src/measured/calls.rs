//! The six calls of both sides, with what they are lent.

use super::desks::{self, Desk};
use resync::raw;
use std::arch::asm;

/// The lists that calls write to.
#[derive(Clone, PartialEq)]
pub struct Lists {
    pub table: Vec<u16>,
    pub starts: Vec<u32>,
    pub edges: Vec<raw::Edge>,
}

impl Default for Lists {
    fn default() -> Lists {
        Lists {
            table: vec![0xABCD; 64 * 64],
            starts: vec![0xABCD_EF01; 64 * 64],
            edges: vec![
                raw::Edge {
                    source: 0xAB,
                    sink: 0xCD,
                    delay: 0xEF
                };
                256
            ],
        }
    }
}

/// What a call is measured with.
pub struct Case {
    pub name: String,
    pub graph: Vec<u8>,
    pub proposal: Vec<u8>,
}

pub struct Call {
    pub name: &'static str,
    pub proved: fn(&Case, &mut Lists),
    pub baseline: fn(&Case, &mut Lists),
    /// The same with the answer as text.
    pub answers: fn(&Case, &mut Lists, &mut Lists) -> [String; 2],
}

/// Hides a value from the compiler, lest it leave out a call or work it out beforehand. (`std::hint::black_box` asks for Rust 1.66.)
#[inline(always)]
fn black_box<T>(mut value: T) -> T {
    // SAFETY: there is no instruction; the compiler only has to assume one that reads and writes the value.
    unsafe {
        asm!("/* {0} */", in(reg) &mut value as *mut T, options(nostack, preserves_flags));
    }
    value
}

/// Both sides of a call.
macro_rules! call {
    ($name:literal, $call:ident, |$case:ident, $lists:ident| $arguments:tt) => {
        Call {
            name: $name,
            proved: |$case, $lists| {
                black_box(call!(@apply raw::$call, $arguments));
            },
            baseline: |$case, $lists| {
                black_box(call!(@apply baseline::$call, $arguments));
            },
            answers: |$case, proved, baseline| {
                let $lists = proved;
                let proved = format!("{:?}", call!(@apply raw::$call, $arguments));
                let $lists = baseline;
                [proved, format!("{:?}", call!(@apply baseline::$call, $arguments))]
            },
        }
    };
    (@apply $call:path, ($($argument:expr),*)) => { $call($(black_box($argument)),*) };
}

pub const CALLS: [Call; 6] = [
    call!("figures", figures, |case, _lists| (&case.graph)),
    call!("least delays", least_delays, |case, lists| (
        &case.graph,
        &mut lists.table
    )),
    call!("redundant", redundant, |case, _lists| (&case.graph)),
    call!("timetable, 64 turns", timetable, |case, lists| (
        &case.graph,
        64,
        &mut lists.starts
    )),
    call!("verdict", verdict, |case, _lists| (
        &case.graph,
        &case.proposal
    )),
    call!("plan", plan, |case, lists| (&case.graph, &mut lists.edges)),
];

impl Call {
    /// A desk alone; for the verdict with several proposals.
    pub fn cases(&self, desk: &Desk) -> Vec<Case> {
        if self.name != "verdict" {
            return vec![Case {
                name: desk.name.to_string(),
                graph: desk.file.clone(),
                proposal: Vec::new(),
            }];
        }
        let case = |(name, proposal)| Case {
            name: format!("{}: {name}", desk.name),
            graph: desk.file.clone(),
            proposal,
        };
        desks::proposals(&desk.file).into_iter().map(case).collect()
    }
}

/// Panics unless both sides give the same answer and leave the same lists.
pub fn compare(call: &Call, case: &Case) {
    let (mut proved, mut baseline) = (Lists::default(), Lists::default());
    let [one, other] = (call.answers)(case, &mut proved, &mut baseline);
    assert_eq!(one, other, "{} of {}", call.name, case.name);
    assert!(proved == baseline, "lists: {} of {}", call.name, case.name);
}
