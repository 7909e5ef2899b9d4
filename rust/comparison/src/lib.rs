//! What the tests and the benchmarks share: seeded random graphs, proposals and damages, the independent checker's answers in the
//! records of the calls, and what is measured.

pub mod calls;
pub mod expected;
pub mod generator;
pub mod guarded;
pub mod measured;
