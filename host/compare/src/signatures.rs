//! Groups about signatures: those of lists, and the plans that are made of them.

use compare::rng::Rng;
use o32::{PLAN_WORDS, SIGNATURE_MAX};

use crate::comparison::Comparison;
use crate::generate::{
    accepted_signature, damage, damaged_list, known_kind, lengthened, list_beyond_the_limits,
    list_of, list_of_noise, room_near, Shape,
};
use crate::lists::{long_lengths, LONG};

pub fn of_shortest_lists(comparison: &mut Comparison, rng: &mut Rng) {
    comparison.signature(&[], 0);
    for first in 0..=0xFF {
        comparison.signature(&[first], rng.below(3));
        for second in 0..=0xFF {
            comparison.signature(&[first, second], rng.below(4));
        }
    }
}

/// Lists of all kinds and of all pairs.
pub fn of_few_kinds(comparison: &mut Comparison, rng: &mut Rng) {
    for first in 0..=0xFF {
        let list = list_of(rng, &[first]);
        comparison.signature(&list, room_near(rng, 1));
        for second in 0..=0xFF {
            let list = list_of(rng, &[first, second]);
            comparison.signature(&list, room_near(rng, 2));
        }
    }
}

pub fn of_accepted_lists(comparison: &mut Comparison, rng: &mut Rng) {
    for _ in 0..100_000 {
        let shape = Shape::random(rng);
        let signature = accepted_signature(rng, shape);
        let list = list_of(rng, &signature);
        comparison.signature(&list, room_near(rng, signature.len()));
    }
}

pub fn of_lists_beyond_the_limits(comparison: &mut Comparison, rng: &mut Rng) {
    for _ in 0..30_000 {
        let list = list_beyond_the_limits(rng);
        comparison.signature(&list, rng.pick(&[0, SIGNATURE_MAX - 1, SIGNATURE_MAX, 40]));
    }
}

pub fn of_damaged_lists(comparison: &mut Comparison, rng: &mut Rng) {
    for _ in 0..100_000 {
        let (signature, list) = damaged_list(rng);
        comparison.signature(&list, room_near(rng, signature.len()));
    }
}

pub fn of_noise(comparison: &mut Comparison, rng: &mut Rng) {
    for _ in 0..50_000 {
        comparison.signature(&list_of_noise(rng), SIGNATURE_MAX);
    }
}

/// Every buffer length from none to a little beyond the signature.
pub fn buffers(comparison: &mut Comparison, rng: &mut Rng) {
    for round in 0..1_600 {
        let signature = accepted_signature(rng, Shape::ALL[round % 4]);
        let list = list_of(rng, &signature);
        for room in 0..=signature.len() + 3 {
            comparison.signature(&list, room);
        }
    }
}

/// Lists and buffers whose lengths don't fit into sixteen bits.
pub fn of_long_lists(comparison: &mut Comparison, rng: &mut Rng) {
    for _ in 0..500 {
        let shape = Shape::random(rng);
        let signature = accepted_signature(rng, shape);
        let list = list_of(rng, &signature);
        comparison.signature(&list, LONG + rng.below(100));

        let length = rng.pick(&long_lengths(&list));
        comparison.signature(&lengthened(rng, list, length), SIGNATURE_MAX);
    }
}

pub fn plans_of_few_kinds(comparison: &mut Comparison, rng: &mut Rng) {
    comparison.make_plan(&[], PLAN_WORDS);
    for first in 0..=0xFF {
        comparison.make_plan(&[first], PLAN_WORDS + rng.below(4));
        for second in 0..=0xFF {
            comparison.make_plan(&[first, second], PLAN_WORDS + rng.below(4));
        }
    }
}

pub fn plans_of_three_kinds(comparison: &mut Comparison, rng: &mut Rng) {
    for _ in 0..60_000 {
        let signature = [known_kind(rng), known_kind(rng), known_kind(rng)];
        comparison.make_plan(&signature, PLAN_WORDS);
        let signature = [rng.byte(), rng.byte(), rng.byte()];
        comparison.make_plan(&signature, PLAN_WORDS);
    }
}

pub fn plans_of_accepted(comparison: &mut Comparison, rng: &mut Rng) {
    for round in 0..100_000 {
        let signature = accepted_signature(rng, Shape::ALL[round % 4]);
        comparison.make_plan(&signature, room_near(rng, PLAN_WORDS));
    }
}

pub fn plans_of_damaged(comparison: &mut Comparison, rng: &mut Rng) {
    for _ in 0..80_000 {
        let shape = Shape::random(rng);
        let mut signature = accepted_signature(rng, shape);
        damage(rng, &mut signature, &[]);
        comparison.make_plan(&signature, room_near(rng, PLAN_WORDS));
    }
}

/// More kinds than a signature may have, or larger ones.
pub fn plans_beyond_the_limits(comparison: &mut Comparison, rng: &mut Rng) {
    for _ in 0..30_000 {
        let shape = rng.pick(&Shape::NEAR_LIMITS);
        let mut signature = accepted_signature(rng, shape);
        for _ in 0..rng.within(1..=4) {
            signature.push(known_kind(rng));
        }
        comparison.make_plan(&signature, rng.pick(&[PLAN_WORDS, 0]));
    }
}

/// Every number of words from none to a little beyond the plan.
pub fn plan_buffers(comparison: &mut Comparison, rng: &mut Rng) {
    for round in 0..400 {
        let signature = accepted_signature(rng, Shape::ALL[round % 4]);
        for room in 0..=PLAN_WORDS + 3 {
            comparison.make_plan(&signature, room);
        }
    }
}

/// Signatures and buffers whose lengths don't fit into sixteen bits.
pub fn plans_of_long(comparison: &mut Comparison, rng: &mut Rng) {
    for _ in 0..200 {
        let shape = Shape::random(rng);
        let signature = accepted_signature(rng, shape);
        let room = rng.pick(&[LONG, LONG + PLAN_WORDS - 1, LONG + PLAN_WORDS]);
        comparison.make_plan(&signature, room);

        let mut kinds = signature;
        kinds.resize(LONG + kinds.len(), rng.pick(&[0x01, 0x05, 0x40, 0x0A]));
        comparison.make_plan(&kinds, PLAN_WORDS);
    }
}
