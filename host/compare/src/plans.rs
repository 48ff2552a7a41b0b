//! Groups about images that are filled by plans.

use compare::rng::Rng;
use o32::{Device, IMAGE_MAX, PLAN_WORDS};

use crate::comparison::Comparison;
use crate::generate::{
    accepted_signature, damage, damaged_list, image_of, insert_marker, known_kind, lengthened,
    list_beyond_the_limits, list_of, list_of_noise, plan_of, plan_of_list, room_near, Shape,
};
use crate::lists::{long_lengths, rooms, LONG, SMALLEST};

/// Kinds of one length and alignment. Where no floating register is used, only
/// the kinds in a plan tell them apart.
const ALIKE: [&[u8]; 4] = [
    &[0x01, 0x02, 0x40],
    &[0x03, 0x04, 0x41],
    &[0x05, 0x07, 0x43],
    &[0x06, 0x08, 0xC0],
];

/// A signature and a list of it.
fn call(rng: &mut Rng, shape: Shape) -> (Vec<u8>, Vec<u8>) {
    let signature = accepted_signature(rng, shape);
    let list = list_of(rng, &signature);
    (signature, list)
}

/// The list of a signature by the signature's own plan.
fn own_plan(comparison: &mut Comparison, rng: &mut Rng, signature: &[u8]) {
    let plan = plan_of(comparison.device(), signature);
    let list = list_of(rng, signature);
    let length = model::lengths(signature).map_or(SMALLEST, |lengths| lengths.image);
    comparison.fill(&plan, &list, length + rng.below(4));
}

/// Lists of no kind, of all kinds and of all pairs.
pub fn of_few_kinds(comparison: &mut Comparison, rng: &mut Rng) {
    own_plan(comparison, rng, &[]);
    for first in 0..=0xFF {
        own_plan(comparison, rng, &[first]);
        for second in 0..=0xFF {
            own_plan(comparison, rng, &[first, second]);
        }
    }
}

pub fn accepted(comparison: &mut Comparison, rng: &mut Rng) {
    for _ in 0..100_000 {
        let shape = Shape::random(rng);
        let (signature, list) = call(rng, shape);
        let plan = plan_of(comparison.device(), &signature);
        let room = room_near(rng, image_of(comparison.device(), &list).len());
        comparison.fill(&plan, &list, room);
    }
}

/// By the plan of the list before it was damaged, or of what it is now.
pub fn damaged_lists(comparison: &mut Comparison, rng: &mut Rng) {
    for _ in 0..100_000 {
        let (signature, list) = damaged_list(rng);
        let plan = if rng.percent(50) {
            plan_of(comparison.device(), &signature)
        } else {
            plan_of_list(comparison.device(), &list)
        };
        let room = rng.pick(&[IMAGE_MAX, IMAGE_MAX, 1060, SMALLEST, 64, 0]);
        comparison.fill(&plan, &list, room);
    }
}

pub fn beyond_the_limits(comparison: &mut Comparison, rng: &mut Rng) {
    for _ in 0..30_000 {
        let list = list_beyond_the_limits(rng);
        let plan = plan_of_list(comparison.device(), &list);
        comparison.fill(&plan, &list, rng.pick(&[0, IMAGE_MAX - 1, IMAGE_MAX]));
    }
}

pub fn of_noise(comparison: &mut Comparison, rng: &mut Rng) {
    for _ in 0..50_000 {
        let list = list_of_noise(rng);
        let plan = plan_of_list(comparison.device(), &list);
        comparison.fill(&plan, &list, IMAGE_MAX);
    }
}

/// Every buffer length for small images, those around the image for large, by
/// the right plan and by one that differs.
pub fn buffers(comparison: &mut Comparison, rng: &mut Rng) {
    for round in 0..1_200 {
        let (signature, list) = call(rng, Shape::ALL[round % 4]);
        let plan = plan_of(comparison.device(), &signature);
        let mut other = plan.clone();
        change_any(rng, &mut other);
        for room in rooms(image_of(comparison.device(), &list).len()) {
            comparison.fill(&plan, &list, room);
            comparison.fill(&other, &list, room);
        }
    }
}

/// Lists, plans and buffers whose lengths don't fit into sixteen bits.
pub fn long(comparison: &mut Comparison, rng: &mut Rng) {
    for _ in 0..300 {
        let shape = Shape::random(rng);
        let (signature, list) = call(rng, shape);
        let mut plan = plan_of(comparison.device(), &signature);
        comparison.fill(&plan, &list, LONG + rng.below(2000));

        let length = rng.pick(&long_lengths(&list));
        let long = lengthened(rng, list.clone(), length);
        comparison.fill(&plan, &long, IMAGE_MAX);

        plan.resize(LONG + PLAN_WORDS, 0);
        comparison.fill(&plan, &list, IMAGE_MAX);
    }
}

/// What else could stand for a number of a plan: its neighbours, the same below
/// 8, 16 and 31 bits, nothing, or anything.
fn changes_of(rng: &mut Rng, word: u32) -> [u32; 7] {
    [
        word.wrapping_add(1),
        word.wrapping_sub(1),
        word ^ 1 << 8,
        word ^ 1 << 16,
        word ^ 1 << 31,
        0,
        rng.word(),
    ]
}

/// Changes a number of a plan.
fn change_any(rng: &mut Rng, plan: &mut [u32]) {
    let at = rng.below(plan.len());
    let changes = changes_of(rng, plan[at]);
    plan[at] = rng.pick(&changes);
}

/// A list by its plan with each number changed in turn.
fn each_changed(comparison: &mut Comparison, rng: &mut Rng, signature: &[u8]) {
    let plan = plan_of(comparison.device(), signature);
    let list = list_of(rng, signature);
    for at in 0..PLAN_WORDS {
        for change in changes_of(rng, plan[at]) {
            let mut changed = plan.clone();
            changed[at] = change;
            // A plan that differs is refused whatever the room is.
            comparison.fill(&changed, &list, rng.pick(&[IMAGE_MAX, IMAGE_MAX, 0]));
        }
    }
}

pub fn changed(comparison: &mut Comparison, rng: &mut Rng) {
    let fixed: [&[u8]; 6] = [
        &[],
        &[0x05],
        &[0x08, 0x07],
        &[0x07, 0x0A, 0x08],
        &[0x0B, 0x05, 0x45],
        &[0x01; 32],
    ];
    for signature in fixed {
        each_changed(comparison, rng, signature);
    }
    for round in 0..60 {
        let signature = accepted_signature(rng, Shape::ALL[round % 4]);
        each_changed(comparison, rng, &signature);
    }
}

/// A signature that differs little from another, or not at all in its plan.
fn neighbour(rng: &mut Rng, signature: &[u8]) -> Vec<u8> {
    let mut other = signature.to_vec();
    match rng.below(4) {
        0 => replace_alike(rng, &mut other),
        1 => insert_marker(rng, &mut other),
        2 => damage(rng, &mut other, &[]),
        _ => {
            other.pop();
        }
    }
    other
}

/// Replaces a kind by one of the same length and alignment, where there is one.
fn replace_alike(rng: &mut Rng, signature: &mut [u8]) {
    if signature.is_empty() {
        return;
    }
    let at = rng.below(signature.len());
    if let Some(kinds) = ALIKE.iter().find(|kinds| kinds.contains(&signature[at])) {
        signature[at] = rng.pick(kinds);
    }
}

/// By the plan of a signature much like the list's, or of any.
pub fn of_other_signatures(comparison: &mut Comparison, rng: &mut Rng) {
    for _ in 0..80_000 {
        let shape = Shape::random(rng);
        let (signature, list) = call(rng, shape);
        let other = if rng.percent(80) {
            neighbour(rng, &signature)
        } else {
            accepted_signature(rng, shape)
        };
        let plan = plan_of(comparison.device(), &other);
        comparison.fill(&plan, &list, rng.pick(&[IMAGE_MAX, IMAGE_MAX, 0]));
    }
}

/// By the plan of the other device, which differs where a float has a register.
pub fn of_the_other_device(comparison: &mut Comparison, rng: &mut Rng) {
    let other = match comparison.device() {
        Device::Fpu => Device::NoFpu,
        Device::NoFpu => Device::Fpu,
    };
    for _ in 0..50_000 {
        let shape = Shape::random(rng);
        let (signature, list) = call(rng, shape);
        comparison.fill(&plan_of(other, &signature), &list, IMAGE_MAX);
    }
}

/// Too few words and too many: zeros, others, or the plan once more behind it.
/// A list that is refused is refused whatever their number.
pub fn of_other_lengths(comparison: &mut Comparison, rng: &mut Rng) {
    let fewer = [0, 1, 2, 3, 95, 96, 97];
    let more = [98, 99, 100, 101, 196, 200];
    for round in 0..1_000 {
        let (signature, list) = if rng.percent(30) {
            damaged_list(rng)
        } else {
            call(rng, Shape::ALL[round % 4])
        };
        let plan = plan_of(comparison.device(), &signature);
        let behind = if rng.percent(50) { 0 } else { rng.word() };
        for length in fewer.into_iter().chain(more) {
            let mut words = plan.clone();
            words.resize(length, behind);
            comparison.fill(&words, &list, IMAGE_MAX);
        }
        comparison.fill(&plan.repeat(2), &list, IMAGE_MAX);
    }
}

/// A word that might stand in a plan, or any.
fn random_word(rng: &mut Rng) -> u32 {
    match rng.below(5) {
        0 => 0,
        1 => u32::from(known_kind(rng)),
        2 => 4 * rng.below(257) as u32,
        3 => rng.pick(&[12, 14, 32, 33, 98, u32::MAX]),
        _ => rng.word(),
    }
}

/// Words that no maker of plans gave, also with a few of a plan left.
pub fn of_random_words(comparison: &mut Comparison, rng: &mut Rng) {
    for _ in 0..50_000 {
        let shape = Shape::random(rng);
        let (signature, list) = call(rng, shape);
        let mut words = plan_of(comparison.device(), &signature);
        let any = rng.below(PLAN_WORDS);
        let from = rng.pick(&[0, 3, 96, any]);
        for word in &mut words[from..] {
            *word = random_word(rng);
        }
        comparison.fill(&words, &list, rng.pick(&[IMAGE_MAX, IMAGE_MAX, 0]));
    }
}

/// The library alone: the three together must answer what the writer answers.
pub fn as_written(comparison: &mut Comparison, rng: &mut Rng) {
    for _ in 0..150_000 {
        let list = match rng.below(10) {
            0..=3 => {
                let shape = Shape::random(rng);
                call(rng, shape).1
            }
            4..=7 => damaged_list(rng).1,
            8 => list_beyond_the_limits(rng),
            _ => list_of_noise(rng),
        };
        let length = image_of(comparison.device(), &list).len();
        let room = room_near(rng, length.max(SMALLEST));
        let spare = spare_words(comparison.device(), rng);
        comparison.fill_as_written(&list, &spare, room);
    }
}

/// Words for a list that is refused: a plan of another, or none at all.
fn spare_words(device: Device, rng: &mut Rng) -> Vec<u32> {
    match rng.below(3) {
        0 => plan_of(device, &accepted_signature(rng, Shape::Usual)),
        1 => (0..PLAN_WORDS).map(|_| random_word(rng)).collect(),
        _ => Vec::new(),
    }
}
