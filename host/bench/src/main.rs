//! Nanoseconds per call. First of the proved library, of the model, and of a
//! plain copy of as many bytes as the result has. Then of the library alone: a
//! plan, the image that is filled by it, and the image that is written without
//! one.
//!
//! The three of a row take turns in every round, on the same inputs and into
//! buffers of their own, each at the same place in a page. The buffers aren't
//! cleared between calls: every call overwrites the result of the one before.

mod cases;
mod memory;
mod sweeps;
mod timing;

use cases::Case;
use sweeps::Sweep;
use timing::{measure, Spread};

fn main() {
    println!("Nanoseconds per call: median (10th to 90th percentile).");
    println!("Buffers are not cleared between calls.");
    println!();
    println!("| call | bytes | o32 | model | copy | o32/model | o32/copy |");
    println!("|---|---:|---:|---:|---:|---:|---:|");
    for case in cases::all() {
        println!("{}", case_row(&case));
    }
    println!();
    println!("One plan, which is made once, and an image for each list of a sweep.");
    println!();
    println!("| list | bytes | plan | fill | write | fill/write |");
    println!("|---|---:|---:|---:|---:|---:|");
    for sweep in sweeps::all() {
        println!("{}", sweep_row(&sweep));
    }
}

/// Times one case and gives its line of the table.
fn case_row(case: &Case) -> String {
    case.check();
    let [o32, model, copy] = measure(case.runners());
    format!(
        "| {} | {} | {} | {} | {} | {:.2} | {:.2} |",
        case.name,
        case.length(),
        cell(&o32),
        cell(&model),
        cell(&copy),
        o32.median / model.median,
        o32.median / copy.median,
    )
}

/// Times one sweep and gives its line of the table.
fn sweep_row(sweep: &Sweep) -> String {
    sweep.check();
    let [plan, fill, write] = measure(sweep.runners());
    format!(
        "| {} | {} | {} | {} | {} | {:.2} |",
        sweep.name,
        sweep.length(),
        cell(&plan),
        cell(&fill),
        cell(&write),
        fill.median / write.median,
    )
}

fn cell(spread: &Spread) -> String {
    format!(
        "{:.1} ({:.1} to {:.1})",
        spread.median, spread.low, spread.high
    )
}
