//! Groups about argument groups that are laid end to end.
//!
//! The laws are about offsets and ends, before the limits and the choice of
//! registers; here they are asked of the plans and images that rest on them.

use compare::rng::Rng;

use crate::comparison::Comparison;
use crate::generate::{
    accepted_signature, carried_from, damage, end_of, leave_same_end, list_of, variadic_signature,
    Shape,
};

/// No kind, and one kind each: both alignments, fill, floats, the marker, the
/// return pointer and the largest structures, of which two end at the limit or near.
const EDGES: [&[u8]; 14] = [
    &[],
    &[0x01],
    &[0x05],
    &[0x06],
    &[0x07],
    &[0x08],
    &[0x0A],
    &[0x0B],
    &[0x40],
    &[0x44],
    &[0xBF],
    &[0xC0],
    &[0xFE],
    &[0xFF],
];

/// Three groups laid one by one, either two of them joined before, with empty
/// groups among them, all joined before, and kind by kind.
fn in_every_way(comparison: &mut Comparison, [first, second, third]: [&[u8]; 3]) {
    let front = [first, second].concat();
    let back = [second, third].concat();
    let whole = [first, &back].concat();
    let kinds: Vec<&[u8]> = whole.chunks(1).collect();
    let ways: [&[&[u8]]; 6] = [
        &[first, second, third],
        &[&front, third],
        &[first, &back],
        &[&[], first, &[], second, &[], third, &[]],
        &[&whole],
        &kinds,
    ];
    for groups in ways {
        comparison.plan_of_groups(groups);
    }
}

/// A signature cut into three groups, of which any may be empty.
fn three_groups<'a>(rng: &mut Rng, signature: &'a [u8]) -> [&'a [u8]; 3] {
    let one = rng.below(signature.len() + 1);
    let other = rng.below(signature.len() + 1);
    let (front, third) = signature.split_at(one.max(other));
    let (first, second) = front.split_at(one.min(other));
    [first, second, third]
}

/// All threes of the edges.
pub fn at_the_edges(comparison: &mut Comparison, _: &mut Rng) {
    for first in EDGES {
        for second in EDGES {
            for third in EDGES {
                in_every_way(comparison, [first, second, third]);
            }
        }
    }
}

pub fn accepted(comparison: &mut Comparison, rng: &mut Rng) {
    for round in 0..8_000 {
        let signature = variadic_signature(rng, Shape::ALL[round % 4]);
        in_every_way(comparison, three_groups(rng, &signature));
    }
}

pub fn damaged(comparison: &mut Comparison, rng: &mut Rng) {
    for round in 0..4_000 {
        let mut signature = variadic_signature(rng, Shape::ALL[round % 4]);
        damage(rng, &mut signature, &[]);
        in_every_way(comparison, three_groups(rng, &signature));
    }
}

/// Groups that are accepted by themselves and go beyond the limits together.
pub fn beyond_the_limits(comparison: &mut Comparison, rng: &mut Rng) {
    for _ in 0..4_000 {
        let groups = [(); 3].map(|()| {
            let shape = rng.pick(&[Shape::Usual, Shape::ManyBytes]);
            accepted_signature(rng, shape)
        });
        in_every_way(comparison, groups.each_ref().map(Vec::as_slice));
    }
}

/// A group that is accepted by itself, behind another that ends at a multiple
/// of 8.
pub fn moved(comparison: &mut Comparison, rng: &mut Rng) {
    for round in 0..25_000 {
        let signature = variadic_signature(rng, Shape::ALL[round % 4]);
        let (first, second) = signature.split_at(rng.below(signature.len() + 1));
        if end_of(first) % 8 == 0 && model::lengths(second).is_some() {
            comparison.plan_of_moved(first, second);
        }
    }
}

/// Three parts joined, and the same with the first two exchanged.
fn both_orders([first, second, third]: &[Vec<u8>; 3]) -> [Vec<u8>; 2] {
    [[first, second, third], [second, first, third]].map(|parts| parts.map(Vec::as_slice).concat())
}

/// Three groups, none of them empty, that are accepted when joined in both orders
/// of the first two.
fn exchangeable_groups(rng: &mut Rng, shape: Shape) -> [Vec<u8>; 3] {
    loop {
        let signature = variadic_signature(rng, shape);
        let groups = three_groups(rng, &signature).map(<[u8]>::to_vec);
        let [_, exchanged] = both_orders(&groups);
        let any_empty = groups.iter().any(Vec::is_empty);
        if !any_empty && model::lengths(&exchanged).is_some() {
            return groups;
        }
    }
}

pub fn exchanged(comparison: &mut Comparison, rng: &mut Rng) {
    for round in 0..12_000 {
        let groups = exchangeable_groups(rng, Shape::ALL[round % 4]);
        comparison.plan_of_exchanged(groups.each_ref().map(Vec::as_slice));
    }
}

/// Where two groups leave the same end in both orders, the third is carried by
/// the same bytes. None of it is in a floating register: as either of the two can
/// stand first, both have an argument, and only the first two arguments get one.
pub fn exchanged_lists(comparison: &mut Comparison, rng: &mut Rng) {
    for round in 0..20_000 {
        let groups = exchangeable_groups(rng, Shape::ALL[round % 4]);
        if !leave_same_end(&groups[0], &groups[1]) {
            continue;
        }
        let bodies = groups.each_ref().map(|kinds| list_of(rng, kinds));
        let third = groups[0].len() + groups[1].len();
        let carried = both_orders(&groups)
            .map(|signature| carried_from(comparison.device(), &signature, third));
        comparison.write_exchanged(&both_orders(&bodies), &carried);
    }
}
