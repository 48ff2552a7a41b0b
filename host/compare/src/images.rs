//! Groups about the readers of images.

use compare::rng::Rng;

use crate::comparison::Comparison;
use crate::generate::{
    accepted_signature, carried_bytes, damage, flip, known_kind, list_of, random_image, room_near,
    written_image, Shape,
};
use crate::lists::{rooms, LONG};
use crate::readers::Reader;

/// An image of the smallest length, for signatures that are refused.
const SMALLEST: usize = 48;

/// Reads of one signature: a written image, a random one and one of a wrong
/// length.
pub fn three_images(comparison: &mut Comparison, rng: &mut Rng, reader: Reader, signature: &[u8]) {
    let Some(lengths) = model::lengths(signature) else {
        let image = random_image(rng, SMALLEST);
        comparison.read(reader, signature, &image, rng.pick(&[0, 4, 1100]));
        return;
    };
    let room = reader.length(signature) + rng.below(4);
    let wrong_length = wrong_length(rng, lengths.image);
    for image in [
        written_image(rng, comparison.device(), signature),
        random_image(rng, lengths.image),
        random_image(rng, wrong_length),
    ] {
        comparison.read(reader, signature, &image, room);
    }
}

fn wrong_length(rng: &mut Rng, right: usize) -> usize {
    let length = match rng.below(6) {
        0 => right - 1,
        1 => right + 1,
        2 => right - 8,
        3 => right + 8,
        4 => rng.below(1100),
        _ => rng.below(right),
    };
    if length == right {
        0
    } else {
        length
    }
}

pub fn shortest(comparison: &mut Comparison, rng: &mut Rng, reader: Reader) {
    three_images(comparison, rng, reader, &[]);
    for first in 0..=0xFF {
        three_images(comparison, rng, reader, &[first]);
        for second in 0..=0xFF {
            three_images(comparison, rng, reader, &[first, second]);
        }
    }
}

pub fn of_three_kinds(comparison: &mut Comparison, rng: &mut Rng, reader: Reader) {
    for _ in 0..60_000 {
        let signature = [known_kind(rng), known_kind(rng), known_kind(rng)];
        three_images(comparison, rng, reader, &signature);
        let signature = [rng.byte(), rng.byte(), rng.byte()];
        three_images(comparison, rng, reader, &signature);
    }
}

/// Written images with random bytes in their holes.
pub fn written(comparison: &mut Comparison, rng: &mut Rng, reader: Reader) {
    for _ in 0..80_000 {
        let shape = Shape::random(rng);
        let signature = reader.signature(rng, shape);
        let image = written_image(rng, comparison.device(), &signature);
        let room = room_near(rng, reader.length(&signature));
        comparison.read(reader, &signature, &image, room);
    }
}

/// The library alone: what it has written it must read back.
pub fn round_trips(comparison: &mut Comparison, rng: &mut Rng) {
    for _ in 0..80_000 {
        let shape = Shape::random(rng);
        let signature = accepted_signature(rng, shape);
        let list = list_of(rng, &signature);
        let carried = carried_bytes(comparison.device(), &signature);
        comparison.round_trip(&signature, &list, &carried);
    }
}

pub fn random(comparison: &mut Comparison, rng: &mut Rng, reader: Reader) {
    for _ in 0..80_000 {
        let shape = Shape::random(rng);
        let signature = reader.signature(rng, shape);
        if let Some(lengths) = model::lengths(&signature) {
            let image = random_image(rng, lengths.image);
            let room = room_near(rng, reader.length(&signature));
            comparison.read(reader, &signature, &image, room);
        }
    }
}

/// One byte changed, often in a word that must be a proper promotion.
pub fn flipped(comparison: &mut Comparison, rng: &mut Rng, reader: Reader) {
    for _ in 0..80_000 {
        let mut signature = reader.signature(rng, Shape::Usual);
        for kind in &mut signature {
            if *kind >= 0x40 && rng.percent(50) {
                *kind = rng.within(0x01..=0x04) as u8;
            }
        }
        let mut image = written_image(rng, comparison.device(), &signature);
        flip(rng, &mut image);
        let room = reader.length(&signature) + rng.below(2);
        comparison.read(reader, &signature, &image, room);
    }
}

/// All lengths up to a little beyond the right one for small images, those
/// around it for large.
pub fn of_wrong_length(comparison: &mut Comparison, rng: &mut Rng, reader: Reader) {
    for round in 0..1_600 {
        let signature = reader.signature(rng, Shape::ALL[round % 4]);
        if let Some(lengths) = model::lengths(&signature) {
            for length in rooms(lengths.image) {
                let image = random_image(rng, length);
                let room = room_near(rng, reader.length(&signature));
                comparison.read(reader, &signature, &image, room);
            }
        }
    }
}

pub fn damaged_signatures(comparison: &mut Comparison, rng: &mut Rng, reader: Reader) {
    for _ in 0..100_000 {
        let shape = Shape::random(rng);
        let mut signature = reader.signature(rng, shape);
        let image = written_image(rng, comparison.device(), &signature);
        damage(rng, &mut signature, &[]);
        let room = rng.pick(&[1100, 1100, 40, 0]);
        comparison.read(reader, &signature, &image, room);
    }
}

/// More kinds than a signature may have, or larger ones.
pub fn beyond_the_limits(comparison: &mut Comparison, rng: &mut Rng, reader: Reader) {
    for _ in 0..30_000 {
        let shape = rng.pick(&Shape::NEAR_LIMITS);
        let mut signature = reader.signature(rng, shape);
        for _ in 0..rng.within(1..=4) {
            signature.push(known_kind(rng));
        }
        let length = model::lengths(&signature).map_or(SMALLEST, |lengths| lengths.image);
        let image = random_image(rng, length);
        comparison.read(reader, &signature, &image, rng.pick(&[1100, 0]));
    }
}

/// Every buffer length for small results, those around for large ones.
pub fn buffers(comparison: &mut Comparison, rng: &mut Rng, reader: Reader) {
    for round in 0..1_600 {
        let signature = reader.signature(rng, Shape::ALL[round % 4]);
        let good = written_image(rng, comparison.device(), &signature);
        let any = random_image(rng, good.len());
        for room in rooms(reader.length(&signature)) {
            comparison.read(reader, &signature, &good, room);
            comparison.read(reader, &signature, &any, room);
        }
    }
}

/// Signatures, images and buffers whose lengths don't fit into sixteen bits.
pub fn long(comparison: &mut Comparison, rng: &mut Rng, reader: Reader) {
    for _ in 0..400 {
        let shape = Shape::random(rng);
        let signature = reader.signature(rng, shape);
        let room = reader.length(&signature);
        let image = written_image(rng, comparison.device(), &signature);
        comparison.read(reader, &signature, &image, LONG + rng.below(2000));

        let mut long = image.clone();
        long.resize(LONG + image.len(), 0);
        comparison.read(reader, &signature, &long, room);

        let mut kinds = signature;
        kinds.resize(LONG + kinds.len(), rng.pick(&[0x01, 0x05, 0x40, 0x0A]));
        comparison.read(reader, &kinds, &image, 1100);
    }
}
