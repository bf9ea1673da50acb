//! The figures that are required.

/// Of every row that is timed beside Rust, at the least.
pub const LEAST_RATIO: f64 = 3.0;

pub struct Required {
    pub what: &'static str,
    pub bound: String,
    pub measured: String,
    pub met: bool,
}

/// The lowest of these ratios is at least the one required.
pub fn at_least(what: &'static str, least: f64, mut ratios: Vec<f64>) -> Required {
    ratios.sort_by(f64::total_cmp);
    let (lowest, median) = (ratios[0], ratios[ratios.len() / 2]);
    let measured = format!("{lowest:.1} times at the lowest, {median:.1} in the median");
    Required { what, bound: format!("at least {least} times the Rust's speed"), measured, met: lowest >= least }
}

/// Prints which are met; whether all are.
pub fn verdict(all: &[Required]) -> bool {
    println!("## Required figures\n\n| figure | required | measured | |\n|---|---|---|---|");
    for Required { what, bound, measured, met } in all {
        println!("| {what} | {bound} | {measured} | {} |", if *met { "met" } else { "MISSED" });
    }
    all.iter().all(|required| required.met)
}
