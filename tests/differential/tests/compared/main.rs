//! The proved code beside the reference: the same answers, and the same words
//! afterwards. A module for each entry point.

mod folding;
mod pddl;
mod pddl_program;
mod programs;
mod propose_program;
mod proposing;
mod reading;
mod running;
mod shared_runs;
mod sizing;
mod split_program;
mod splitting;
mod unfold_program;
mod unfolding;
mod writing;

const HEADER: &str = include_str!("../../../../include/splitter.h");
const MODULES: &str = include_str!("main.rs");

/// A function stands in the header exactly where its module stands here.
#[test]
fn every_function_is_compared() {
    for (function, module) in [
        ("splitter_read", "reading"),
        ("splitter_write", "writing"),
        ("splitter_split", "splitting"),
        ("splitter_run", "running"),
        ("splitter_unfold", "unfolding"),
        ("splitter_fold", "folding"),
        ("splitter_write_pddl", "pddl"),
        ("splitter_propose", "proposing"),
        ("splitter_sizes", "sizing"),
    ] {
        let declared = HEADER.contains(&format!("uint32_t {function}("));
        let compared = MODULES.lines().any(|line| line == format!("mod {module};"));
        assert_eq!(compared, declared, "{function}");
    }
}
