//! The proved code beside the reference, both built for release, in one run.

mod folding;
mod lists;
mod pddl;
mod proposing;
mod reading;
mod running;
mod sizing;
mod splitting;
mod tasks;
mod timing;
mod unfolding;
mod writing;

fn main() {
    running::bench();
    reading::bench();
    writing::bench();
    pddl::bench();
    splitting::bench();
    sizing::bench();
    proposing::bench();
    unfolding::bench();
    folding::bench();
}
