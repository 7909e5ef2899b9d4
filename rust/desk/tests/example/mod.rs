//! Document 01's example desk.

/// Its description.
pub const EXAMPLE: &str = "\
bound 12
input mic
output mix

task mic  on 0 time 2
task eq   on 0 time 3
task gate on 1 time 1
task mix  on 1 time 4

wait mic -> gate
wait eq  -> mix
wait mic -> mix

proposal
wait eq -> gate
";
