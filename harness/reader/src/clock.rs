//! How long a call takes, for the benchmarks.

use std::time::Instant;

/// The bytes of the largest sheet.
const MOST: usize = 32_768;
const ROUNDS: usize = 4_001;

/// Microseconds for one call on a sheet, the median of many. On a small sheet several calls are made between two looks at
/// the clock.
pub fn time(sheet: &[u8], call: impl FnMut()) -> f64 {
    median(ROUNDS, (MOST / sheet.len()).max(1), call)
}

/// Microseconds for one call, the median of `rounds` looks at the clock, with `calls` calls between two of them.
pub fn median(rounds: usize, calls: usize, mut call: impl FnMut()) -> f64 {
    let mut times: Vec<f64> = (0..rounds)
        .map(|_| {
            let began = Instant::now();
            (0..calls).for_each(|_| call());
            began.elapsed().as_secs_f64() * 1e6 / calls as f64
        })
        .collect();
    times.sort_by(f64::total_cmp);
    times[rounds / 2]
}

/// The last line of a benchmark: how many sheets were timed, and the least and the greatest of what was found.
pub fn found(ratios: &[f64], what: &str) -> String {
    let least = ratios.iter().copied().fold(f64::INFINITY, f64::min);
    let most = ratios.iter().copied().fold(0.0, f64::max);
    let sheets = ratios.len();
    format!("{sheets} sheets timed: {what} {least:.1} to {most:.1} times as long")
}

#[test]
fn the_last_line_has_the_least_and_the_greatest() {
    let line = found(&[2.0, 0.5, 31.25], "the original takes");
    assert_eq!(
        line,
        "3 sheets timed: the original takes 0.5 to 31.2 times as long"
    );
}
