//! Compares the proved library with the model.
//!
//! Every comparison covers all parts of the answer, the whole output buffer,
//! the canaries around it and around the inputs, and the inputs themselves.
//! Every group runs for both devices, but for those about the signatures of
//! lists and about descriptions, which no device matters to. The inputs follow
//! from a seed: `compare [SEED]`, decimal or `0x...`.

mod comparison;
mod coverage;
mod descriptions;
mod frames;
mod generate;
mod guarded;
mod images;
mod joins;
mod lists;
mod plans;
mod prologues;
mod readers;
mod report;
mod signatures;
mod walks;

use std::env;
use std::process::ExitCode;

use compare::rng::{seed_from, Rng};

use comparison::{Comparison, DEVICES};
use coverage::{Coverage, Operation};
use readers::Reader;

type Group = (&'static str, fn(&mut Comparison, &mut Rng));

/// A group that is made for each of the two readers.
type ReaderGroup = (&'static str, fn(&mut Comparison, &mut Rng, Reader));

const WRITING: [Group; 11] = [
    ("write, lists of 0, 1 and 2 bytes", lists::shortest),
    ("write, lists of 3 bytes", lists::of_three_bytes),
    ("write, accepted lists", lists::usual),
    (
        "write, lists of about 32 arguments",
        lists::of_many_arguments,
    ),
    ("write, lists of about 1,024 bytes", lists::of_many_bytes),
    ("write, lists of 32 arguments and 1,024 bytes", lists::full),
    ("write, lists beyond the limits", lists::beyond_the_limits),
    ("write, damaged lists", lists::damaged),
    ("write, noise", lists::of_noise),
    ("write, buffer lengths", lists::buffers),
    ("write, long lists and buffers", lists::long),
];

const PLANNING: [Group; 7] = [
    (
        "make_plan, signatures of 0, 1 and 2 kinds",
        signatures::plans_of_few_kinds,
    ),
    (
        "make_plan, signatures of 3 kinds",
        signatures::plans_of_three_kinds,
    ),
    (
        "make_plan, accepted signatures",
        signatures::plans_of_accepted,
    ),
    (
        "make_plan, damaged signatures",
        signatures::plans_of_damaged,
    ),
    (
        "make_plan, signatures beyond the limits",
        signatures::plans_beyond_the_limits,
    ),
    ("make_plan, buffer lengths", signatures::plan_buffers),
    (
        "make_plan, long signatures and buffers",
        signatures::plans_of_long,
    ),
];

const FILLING: [Group; 13] = [
    ("fill, lists of 0, 1 and 2 kinds", plans::of_few_kinds),
    ("fill, accepted lists", plans::accepted),
    ("fill, damaged lists", plans::damaged_lists),
    ("fill, lists beyond the limits", plans::beyond_the_limits),
    ("fill, noise", plans::of_noise),
    ("fill, buffer lengths", plans::buffers),
    ("fill, long lists, plans and buffers", plans::long),
    ("fill, plans with one number changed", plans::changed),
    (
        "fill, plans of other signatures",
        plans::of_other_signatures,
    ),
    (
        "fill, plans of the other device",
        plans::of_the_other_device,
    ),
    ("fill, wrong numbers of words", plans::of_other_lengths),
    ("fill, random words", plans::of_random_words),
    ("fill, as the library writes", plans::as_written),
];

const JOINING: [Group; 7] = [
    ("make_plan, joined groups at the edges", joins::at_the_edges),
    ("make_plan, joined groups", joins::accepted),
    ("make_plan, joined groups with damage", joins::damaged),
    (
        "make_plan, joined groups beyond the limits",
        joins::beyond_the_limits,
    ),
    ("make_plan, groups moved by a multiple of 8", joins::moved),
    ("make_plan, groups exchanged", joins::exchanged),
    ("write, groups exchanged", joins::exchanged_lists),
];

const READING: [ReaderGroup; 10] = [
    ("signatures of 0, 1 and 2 kinds", images::shortest),
    ("signatures of 3 kinds", images::of_three_kinds),
    ("written images with noise in their holes", images::written),
    ("random images", images::random),
    ("images with a flipped byte", images::flipped),
    ("wrong image lengths", images::of_wrong_length),
    ("damaged signatures", images::damaged_signatures),
    ("signatures beyond the limits", images::beyond_the_limits),
    ("buffer lengths", images::buffers),
    ("long signatures, images and buffers", images::long),
];

/// Groups that only one of the two readers has.
const READING_ALONE: [Group; 4] = [
    ("read, what the library has written", images::round_trips),
    ("walk, two kinds and a marker", walks::around_the_marker),
    ("walk, as the library reads", walks::as_read),
    ("walk, on both devices", walks::on_both_devices),
];

const FRAMES: [Group; 5] = [
    ("frame, limits", frames::at_the_limits),
    (
        "frame, masks of up to two registers, all pairs",
        frames::small_masks_and_all_pairs,
    ),
    ("frame, all masks of saved registers", frames::saved_masks),
    ("frame, random requests", frames::random),
    ("frame, buffer lengths", frames::buffers),
];

const PROLOGUES: [Group; 13] = [
    ("check_prologue, own prologues", prologues::own),
    (
        "check_prologue, as the library writes",
        prologues::as_written,
    ),
    ("check_prologue, any order and zeros", prologues::reordered),
    (
        "check_prologue, all short codes of a few words",
        prologues::of_few_words,
    ),
    (
        "check_prologue, a store missing or doubled",
        prologues::one_count_wrong,
    ),
    (
        "check_prologue, several missing or doubled",
        prologues::several_counts_wrong,
    ),
    (
        "check_prologue, addiu missing, doubled or late",
        prologues::addiu_elsewhere,
    ),
    ("check_prologue, other words", prologues::other_words),
    (
        "check_prologue, places exchanged",
        prologues::exchanged_places,
    ),
    ("check_prologue, one bit flipped", prologues::flipped_bits),
    ("check_prologue, noise", prologues::of_noise),
    ("check_prologue, lengths", prologues::lengths),
    (
        "check_prologue, refused requests",
        prologues::of_refused_requests,
    ),
];

/// Groups that run once.
const SIGNATURES: [Group; 8] = [
    (
        "signature, lists of 0, 1 and 2 bytes",
        signatures::of_shortest_lists,
    ),
    (
        "signature, lists of 1 and 2 kinds",
        signatures::of_few_kinds,
    ),
    ("signature, accepted lists", signatures::of_accepted_lists),
    (
        "signature, lists beyond the limits",
        signatures::of_lists_beyond_the_limits,
    ),
    ("signature, damaged lists", signatures::of_damaged_lists),
    ("signature, noise", signatures::of_noise),
    ("signature, buffer lengths", signatures::buffers),
    (
        "signature, long lists and buffers",
        signatures::of_long_lists,
    ),
];

/// Groups that run once too.
const DESCRIPTIONS: [Group; 13] = [
    (
        "describe, descriptions of 0, 1 and 2 bytes",
        descriptions::shortest,
    ),
    (
        "describe, descriptions of 3 bytes",
        descriptions::of_three_bytes,
    ),
    (
        "describe, all short ones of a few bytes",
        descriptions::of_few_bytes,
    ),
    (
        "describe, all that goes on near a limit",
        descriptions::near_limits,
    ),
    ("describe, every count", descriptions::repeated),
    ("describe, random structures", descriptions::random),
    ("describe, every byte replaced", descriptions::replaced),
    ("describe, cut off everywhere", descriptions::cut_off),
    ("describe, bytes left over", descriptions::left_over),
    ("describe, damaged descriptions", descriptions::damaged),
    ("describe, noise", descriptions::of_noise),
    ("describe, fullest descriptions", descriptions::fullest),
    ("describe, long descriptions", descriptions::long),
];

fn main() -> ExitCode {
    let seed = match seed_from(env::args().nth(1)) {
        Ok(seed) => seed,
        Err(message) => {
            eprintln!("{message}");
            return ExitCode::from(2);
        }
    };
    println!("seed: {seed:#018X}");

    let mut comparison = Comparison::new(seed);
    run_groups(&mut comparison, seed);
    comparison.check_coverage();
    print_answers(comparison.coverage());
    for report in comparison.reports() {
        println!("FAILED {report}");
    }
    println!(
        "{} passed, {} failed",
        comparison.passed(),
        comparison.failed()
    );
    if comparison.failed() == 0 {
        ExitCode::SUCCESS
    } else {
        ExitCode::FAILURE
    }
}

fn run_groups(comparison: &mut Comparison, seed: u64) {
    let making = WRITING.into_iter().chain(PLANNING).chain(FILLING);
    for (name, group) in making.chain(JOINING) {
        run_group(comparison, seed, name, group);
    }
    for reader in Reader::BOTH {
        for (name, group) in READING {
            let name = format!("{}, {name}", reader.name());
            run_group(comparison, seed, &name, |comparison, rng| {
                group(comparison, rng, reader)
            });
        }
    }
    let alone = READING_ALONE.into_iter().chain(FRAMES);
    for (name, group) in alone.chain(PROLOGUES) {
        run_group(comparison, seed, name, group);
    }
    for (name, group) in SIGNATURES.into_iter().chain(DESCRIPTIONS) {
        run_group_once(comparison, seed, name, group);
    }
}

fn run_group(
    comparison: &mut Comparison,
    seed: u64,
    name: &str,
    group: impl Fn(&mut Comparison, &mut Rng),
) {
    let before = comparison.total();
    for device in DEVICES {
        comparison.start_group(name, device);
        group(comparison, &mut Rng::for_part(seed, name));
    }
    println!("{name}: {} comparisons", comparison.total() - before);
}

fn run_group_once(
    comparison: &mut Comparison,
    seed: u64,
    name: &str,
    group: fn(&mut Comparison, &mut Rng),
) {
    let before = comparison.total();
    comparison.start_group_without_device(name);
    group(comparison, &mut Rng::for_part(seed, name));
    println!("{name}: {} comparisons", comparison.total() - before);
}

fn print_answers(coverage: &Coverage) {
    for device in DEVICES {
        for operation in Operation::ALL {
            let answers = coverage.text(operation, device);
            println!("answers compared, {device:?}, {operation:?}: {answers}");
        }
        println!(
            "answers compared, {device:?}, $28 of Frame: {}",
            coverage.global_pointers_text(device)
        );
        println!(
            "answers compared, {device:?}, verdicts of Check: {}",
            coverage.verdicts_text(device)
        );
        println!("joined groups, {device:?}: {}", coverage.joins_text(device));
    }
    println!(
        "answers compared, signature: {}",
        coverage.signatures_text()
    );
    println!(
        "answers compared, describe: {}",
        coverage.descriptions_text()
    );
}
