//! Groups about the writer.

use compare::rng::Rng;

use crate::comparison::Comparison;
use crate::generate::{
    accepted_signature, damaged_list, image_of, known_kind, lengthened, list_beyond_the_limits,
    list_of, list_of_noise, room_near, Shape,
};

/// The length of the smallest image.
pub const SMALLEST: usize = 48;

/// The first length that sixteen bits can't hold.
pub const LONG: usize = 1 << 16;

pub fn shortest(comparison: &mut Comparison, rng: &mut Rng) {
    comparison.write(&[], SMALLEST);
    for first in 0..=0xFF {
        comparison.write(&[first], SMALLEST + rng.below(4));
        for second in 0..=0xFF {
            comparison.write(&[first, second], SMALLEST + rng.below(4));
        }
    }
}

pub fn of_three_bytes(comparison: &mut Comparison, rng: &mut Rng) {
    for first in 0..=0xFF {
        for second in 0..=0xFF {
            let thirds = [rng.byte(), known_kind(rng), known_kind(rng)];
            for third in thirds {
                comparison.write(&[first, second, third], SMALLEST + rng.below(4));
            }
        }
    }
}

fn accepted(comparison: &mut Comparison, rng: &mut Rng, shape: Shape, rounds: usize) {
    for _ in 0..rounds {
        let signature = accepted_signature(rng, shape);
        let list = list_of(rng, &signature);
        let room = room_near(rng, image_of(comparison.device(), &list).len());
        comparison.write(&list, room);
    }
}

pub fn usual(comparison: &mut Comparison, rng: &mut Rng) {
    accepted(comparison, rng, Shape::Usual, 120_000);
}

pub fn of_many_arguments(comparison: &mut Comparison, rng: &mut Rng) {
    accepted(comparison, rng, Shape::ManyArguments, 30_000);
}

pub fn of_many_bytes(comparison: &mut Comparison, rng: &mut Rng) {
    accepted(comparison, rng, Shape::ManyBytes, 30_000);
}

pub fn full(comparison: &mut Comparison, rng: &mut Rng) {
    accepted(comparison, rng, Shape::Full, 20_000);
}

pub fn beyond_the_limits(comparison: &mut Comparison, rng: &mut Rng) {
    for _ in 0..30_000 {
        let list = list_beyond_the_limits(rng);
        let room = rng.pick(&[0, SMALLEST, 160, 1055, 1056, 1057]);
        comparison.write(&list, room);
    }
}

pub fn damaged(comparison: &mut Comparison, rng: &mut Rng) {
    for _ in 0..200_000 {
        let (_, list) = damaged_list(rng);
        let room = rng.pick(&[1056, 1056, 1060, SMALLEST, 64, 0]);
        comparison.write(&list, room);
    }
}

pub fn of_noise(comparison: &mut Comparison, rng: &mut Rng) {
    for _ in 0..100_000 {
        comparison.write(&list_of_noise(rng), 1056);
    }
}

/// Every buffer length for small images, those around the image for large.
pub fn buffers(comparison: &mut Comparison, rng: &mut Rng) {
    for round in 0..1_600 {
        let signature = accepted_signature(rng, Shape::ALL[round % 4]);
        let list = list_of(rng, &signature);
        for room in rooms(image_of(comparison.device(), &list).len()) {
            comparison.write(&list, room);
        }
    }
}

/// Lists and buffers whose lengths don't fit into sixteen bits, and lists
/// longer than any that is accepted.
pub fn long(comparison: &mut Comparison, rng: &mut Rng) {
    for _ in 0..500 {
        let shape = Shape::random(rng);
        let signature = accepted_signature(rng, shape);
        let list = list_of(rng, &signature);
        comparison.write(&list, LONG + rng.below(2000));

        let length = rng.pick(&long_lengths(&list));
        comparison.write(&lengthened(rng, list, length), 1056);
    }
}

/// Lengths of lists longer than any that is accepted. The last differs from that
/// of an accepted list by what sixteen bits can't hold.
pub fn long_lengths(list: &[u8]) -> [usize; 6] {
    [2047, 2048, 2049, LONG - 1, LONG, LONG + list.len()]
}

/// Buffer lengths to try for a result of `length` bytes.
pub fn rooms(length: usize) -> Vec<usize> {
    if length <= 100 {
        (0..=length + 3).collect()
    } else {
        [0, 1, 31, 32, 47, 48]
            .into_iter()
            .chain(length - 9..=length + 3)
            .collect()
    }
}
