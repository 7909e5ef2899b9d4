//! What is measured, by the benchmarks and by the test of the stack: the calls of both sides, the desks that they are made on, and the
//! stack that a call takes.

pub mod calls;
pub mod desks;
pub mod stack;
