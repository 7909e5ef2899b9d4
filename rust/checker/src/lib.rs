//! An independent checker, worked out plainly from the papers and without regard to speed, to compare the proved calls with.
//!
//! [`files`] (the two files), [`schedule`] (a graph), [`proposals`] (a proposal for it), [`plans`] (the tool's own) and [`runs`]
//! (runs of a graph, to hold verdicts against).

#[cfg(test)]
mod example;
pub mod files;
pub mod plans;
pub mod proposals;
pub mod runs;
pub mod schedule;
