//! The proved code through its C interface, `include/splitter.h`: a module for
//! each entry point, with answers as rows of numbers; and the programs.

pub mod beside;
pub mod folding;
pub mod pddl;
pub mod programs;
pub mod proposing;
pub mod reading;
pub mod running;
pub mod shared_runs;
pub mod sizing;
pub mod splitting;
pub mod unfolding;
pub mod writing;

/// What a number lent to be written holds before the call.
const UNWRITTEN: u64 = 0xdead_beef;
