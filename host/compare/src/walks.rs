//! Groups about the walk alone. Those that it shares with the reader are in
//! `images`.

use compare::rng::Rng;
use o32::Device;

use crate::comparison::Comparison;
use crate::generate::{
    damage, flip, random_image, room_near, variadic_signature, written_image, Shape, MARKER,
};
use crate::images::three_images;
use crate::readers::Reader;

/// All pairs of kinds with the marker between them.
pub fn around_the_marker(comparison: &mut Comparison, rng: &mut Rng) {
    for first in 0..=0xFF {
        for second in 0..=0xFF {
            let signature = [first, MARKER, second];
            three_images(comparison, rng, Reader::Walk, &signature);
        }
    }
}

/// A signature and an image: mostly accepted, and often damaged.
fn any_call(rng: &mut Rng, device: Device) -> (Vec<u8>, Vec<u8>) {
    let shape = Shape::random(rng);
    let mut signature = variadic_signature(rng, shape);
    let mut image = written_image(rng, device, &signature);
    match rng.below(12) {
        0 => image = random_image(rng, image.len()),
        1 | 2 => flip(rng, &mut image),
        3 => image.truncate(rng.below(image.len())),
        4 => damage(rng, &mut signature, &[]),
        _ => {}
    }
    (signature, image)
}

/// The library alone: it must walk as it reads.
pub fn as_read(comparison: &mut Comparison, rng: &mut Rng) {
    for _ in 0..100_000 {
        let (signature, image) = any_call(rng, comparison.device());
        comparison.walk_as_read(&signature, &image);
    }
}

/// The library alone: the device must not matter to a walk.
pub fn on_both_devices(comparison: &mut Comparison, rng: &mut Rng) {
    for _ in 0..50_000 {
        let (signature, image) = any_call(rng, comparison.device());
        let room = room_near(rng, Reader::Walk.length(&signature));
        comparison.walk_on_both_devices(&signature, &image, room);
    }
}
