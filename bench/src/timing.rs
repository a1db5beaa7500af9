//! Medians of repeated calls, in a row of the table printed.

use std::hint::black_box;
use std::time::{Duration, Instant};

/// A sample takes at least so long, and all samples of a slow call about so
/// long.
const SAMPLE: Duration = Duration::from_millis(1);
const SLOW_SAMPLES: Duration = Duration::from_millis(500);

/// A call that is measured.
pub type Call<'a> = &'a mut dyn FnMut();

fn elapsed(times: u32, call: &mut dyn FnMut()) -> Duration {
    let start = Instant::now();
    for _ in 0..times {
        call();
    }
    start.elapsed()
}

/// The median times of the calls, in nanoseconds. Their samples are taken in
/// turn, so that what else the machine does falls on all of them.
pub fn medians<const CALLS: usize>(mut calls: [Call; CALLS]) -> [f64; CALLS] {
    let once = calls.each_mut().map(|call| {
        call();
        elapsed(1, call).as_nanos().max(1)
    });
    let times = once.map(|once| (SAMPLE.as_nanos() / once).clamp(1, 10_000) as u32);
    let slowest = once.into_iter().max().unwrap_or(1);
    let mut samples = [(); CALLS].map(|()| Vec::new());
    for _ in 0..(SLOW_SAMPLES.as_nanos() / slowest).clamp(5, 21) {
        for (number, call) in calls.iter_mut().enumerate() {
            samples[number].push(elapsed(times[number], call) / times[number]);
        }
    }
    samples.map(|mut samples| {
        samples.sort();
        samples[samples.len() / 2].as_nanos() as f64
    })
}

/// The names of a row's cells, the last one for a unit of the work.
pub fn titles(what: &str, unit: &str) -> String {
    let each = format!("ns/{unit}");
    format!(
        "\n{what:<42} {:>13} {:>13} {:>7} {each:>9}",
        "reference ns", "proved ns", "ratio"
    )
}

pub fn heading(what: &str, unit: &str) {
    println!("{}", titles(what, unit));
}

/// The cells of a row that both have: the reference's time, the proved code's,
/// the first over the second, and the second over the units of work.
pub fn cells(units: usize, reference: f64, proved: f64) -> String {
    let ratio = reference / proved;
    let each = proved / units.max(1) as f64;
    format!("{reference:>13.0} {proved:>13.0} {ratio:>7.2} {each:>9.1}")
}

/// Times both on the same work and prints a row.
pub fn row(what: &str, units: usize, mut reference: impl FnMut(), mut proved: impl FnMut()) {
    let [reference, proved] = medians([&mut reference, &mut proved]);
    println!("{what:<42} {}", cells(units, reference, proved));
}

/// A heading with the cells of a plain copy.
pub fn heading_and_copy(what: &str, unit: &str) {
    println!("{} {:>12} {:>7}", titles(what, unit), "copy ns", "ratio");
}

/// Times both beside a plain copy of the words given, and prints a row with its
/// time over the proved code's.
pub fn row_and_copy(
    what: &str,
    units: usize,
    words: &[u16],
    mut reference: impl FnMut(),
    mut proved: impl FnMut(),
) {
    let mut to = vec![0; words.len()];
    let mut copy = || black_box(&mut to).copy_from_slice(black_box(words));
    let [reference, proved, copy] = medians([&mut reference, &mut proved, &mut copy]);
    let cells = cells(units, reference, proved);
    println!("{what:<42} {cells} {copy:>12.0} {:>7.2}", copy / proved);
}
