//! Groups about descriptions of structures.

use compare::rng::Rng;
use compare::trees::{Shape, CLOSE, DEPTH_LIMIT, OPEN, REPEAT, SCALARS};

use crate::comparison::Comparison;
use crate::lists::LONG;

/// A scalar of each alignment, the bytes of structures, and two that are
/// unknown. Each of them may be a count, also of 0 and of 255 repeats.
const FEW: [u8; 9] = [0x00, 0x01, 0x03, 0x05, 0x06, OPEN, CLOSE, REPEAT, 0xFF];

/// Where a member may end in its structure.
const END_LIMIT: usize = 512;

/// Many more bytes than a description has that isn't refused before its end.
const MEGABYTE: usize = 1 << 20;

pub fn shortest(comparison: &mut Comparison, _: &mut Rng) {
    comparison.describe(&[]);
    for first in 0..=0xFF {
        comparison.describe(&[first]);
        for second in 0..=0xFF {
            comparison.describe(&[first, second]);
        }
    }
}

/// All that begin as a description must.
pub fn of_three_bytes(comparison: &mut Comparison, _: &mut Rng) {
    for second in 0..=0xFF {
        for third in 0..=0xFF {
            comparison.describe(&[OPEN, second, third]);
        }
    }
}

/// Every way to go on with at most `length` bytes of a few.
fn all_behind(comparison: &mut Comparison, description: &mut Vec<u8>, length: usize) {
    comparison.describe(description);
    if length == 0 {
        return;
    }
    for byte in FEW {
        description.push(byte);
        all_behind(comparison, description, length - 1);
        description.pop();
    }
}

pub fn of_few_bytes(comparison: &mut Comparison, _: &mut Rng) {
    all_behind(comparison, &mut Vec::new(), 4);
    all_behind(comparison, &mut vec![OPEN], 6);
}

/// Members that are single bytes, so many of them.
fn bytes(count: usize) -> Vec<u8> {
    let most = usize::from(u8::MAX);
    (0..count)
        .step_by(most)
        .flat_map(|from| [REPEAT, (count - from).min(most) as u8, 0x01])
        .collect()
}

/// Behind structures that are open to each depth, with members up to about
/// where one may end or where sizes begin to have no kind.
pub fn near_limits(comparison: &mut Comparison, _: &mut Rng) {
    for depth in 1..=DEPTH_LIMIT {
        for end in [0, 63, 64, 67, 319, 503, 508, 511, 512] {
            let mut description = vec![OPEN; depth];
            description.extend(bytes(end));
            all_behind(comparison, &mut description, 4);
            // A repeat of the innermost structure counts when it is closed.
            if depth > 1 {
                let repeats = (END_LIMIT / end.max(2)).min(255) as u8;
                description.splice(depth - 1..depth, [REPEAT, repeats, OPEN]);
                all_behind(comparison, &mut description, 3);
            }
        }
    }
}

/// Scalars, and structures of every size, with every count. The products have
/// up to 17 bits.
pub fn repeated(comparison: &mut Comparison, _: &mut Rng) {
    let scalars = SCALARS.map(|scalar| vec![scalar]);
    let structures = (1..=END_LIMIT).map(|size| [&[OPEN], &bytes(size)[..], &[CLOSE]].concat());
    for member in scalars.into_iter().chain(structures) {
        for count in 0..=0xFF {
            let description = [&[OPEN, REPEAT, count], &member[..], &[CLOSE]].concat();
            comparison.describe(&description);
        }
    }
}

fn random_description(rng: &mut Rng) -> Vec<u8> {
    let shape = rng.pick(&Shape::ALL);
    shape.tree(rng).description()
}

pub fn random(comparison: &mut Comparison, rng: &mut Rng) {
    for shape in Shape::ALL {
        for _ in 0..50_000 {
            comparison.describe(&shape.tree(rng).description());
        }
    }
}

/// Every byte in every place of a description.
pub fn replaced(comparison: &mut Comparison, rng: &mut Rng) {
    for _ in 0..60 {
        let mut description = random_description(rng);
        for place in 0..description.len() {
            let before = description[place];
            for byte in 0..=0xFF {
                description[place] = byte;
                comparison.describe(&description);
            }
            description[place] = before;
        }
    }
}

pub fn cut_off(comparison: &mut Comparison, rng: &mut Rng) {
    for _ in 0..4_000 {
        let description = random_description(rng);
        for length in 0..description.len() {
            comparison.describe(&description[..length]);
        }
    }
}

pub fn left_over(comparison: &mut Comparison, rng: &mut Rng) {
    for _ in 0..300 {
        let mut description = random_description(rng);
        let length = description.len();
        for byte in 0..=0xFF {
            description.truncate(length);
            description.push(byte);
            comparison.describe(&description);
        }
        description.truncate(length);
        description.extend(random_description(rng));
        comparison.describe(&description);
    }
}

/// A byte that is often one that descriptions have.
fn likely_byte(rng: &mut Rng) -> u8 {
    match rng.below(10) {
        0..=2 => rng.pick(&SCALARS),
        3..=6 => rng.pick(&[OPEN, CLOSE, REPEAT]),
        7 => rng.pick(&[0x00, 0x09, 0x0F, 0x13, 0xFF]),
        _ => rng.byte(),
    }
}

/// One byte changed, put in, left out or exchanged with the next, or the rest
/// cut off.
fn damage(rng: &mut Rng, description: &mut Vec<u8>) {
    let at = rng.below(description.len() + 1);
    let is_byte = at < description.len();
    match rng.below(6) {
        0 if is_byte => description[at] ^= 1 << rng.below(8),
        1 if is_byte => description[at] = likely_byte(rng),
        2 if is_byte => drop(description.remove(at)),
        3 if at + 1 < description.len() => description.swap(at, at + 1),
        4 => description.truncate(at),
        _ => description.insert(at, likely_byte(rng)),
    }
}

pub fn damaged(comparison: &mut Comparison, rng: &mut Rng) {
    for _ in 0..300_000 {
        let mut description = random_description(rng);
        for _ in 0..rng.within(1..=3) {
            damage(rng, &mut description);
        }
        comparison.describe(&description);
    }
}

/// Bytes as no tree has them; most begin as a description must.
pub fn of_noise(comparison: &mut Comparison, rng: &mut Rng) {
    for _ in 0..200_000 {
        let length = rng.within(0..=60);
        let mut description: Vec<u8> = (0..length).map(|_| likely_byte(rng)).collect();
        if rng.percent(90) {
            description.insert(0, OPEN);
        }
        comparison.describe(&description);
    }
}

/// A byte that stands once, inside of so many structures that stand once. This
/// is the longest description of one byte.
fn wrapped_byte(structures: usize) -> Vec<u8> {
    let open = [REPEAT, 1, OPEN].repeat(structures);
    let close = [CLOSE].repeat(structures);
    [&open[..], &[REPEAT, 1, 0x01], &close].concat()
}

/// Structures that are open to depth 6. Each has as many bytes as `end` says,
/// wrapped as deep as they can be.
fn nested(mut end: impl FnMut() -> usize) -> Vec<u8> {
    let mut description = vec![OPEN];
    for depth in 1..=DEPTH_LIMIT {
        description.extend(wrapped_byte(DEPTH_LIMIT - depth).repeat(end()));
        if depth < DEPTH_LIMIT {
            description.extend([REPEAT, 1, OPEN]);
        }
    }
    description
}

/// The longest description that isn't refused before its end, with every byte
/// behind it: this gives the largest place. Then others that are nearly as
/// long.
pub fn fullest(comparison: &mut Comparison, rng: &mut Rng) {
    let full = nested(|| END_LIMIT);
    for end in [&[][..], &[REPEAT], &[REPEAT, 1], &[REPEAT, 0xFF]] {
        let mut description = [&full, end].concat();
        comparison.describe(&description);
        for byte in 0..=0xFF {
            description.push(byte);
            comparison.describe(&description);
            description.pop();
        }
    }
    for _ in 0..150 {
        let mut description = nested(|| rng.within(END_LIMIT - 40..=END_LIMIT));
        description.extend([CLOSE; DEPTH_LIMIT]);
        comparison.describe(&description);
        damage(rng, &mut description);
        comparison.describe(&description);
    }
}

/// Descriptions whose lengths don't fit into sixteen bits.
pub fn long(comparison: &mut Comparison, rng: &mut Rng) {
    for _ in 0..300 {
        let mut description = random_description(rng);
        if rng.percent(50) {
            // Without its end it goes on.
            description.pop();
        }
        let byte = likely_byte(rng);
        description.resize(LONG + description.len(), byte);
        comparison.describe(&description);
    }
    let full = nested(|| END_LIMIT);
    let once = [REPEAT, 1];
    let members = wrapped_byte(DEPTH_LIMIT - 1);
    for part in [
        &[0x00][..],
        &[0x01],
        &[OPEN],
        &[CLOSE],
        &[REPEAT],
        &once,
        &members,
        &full,
    ] {
        for beginning in [&[][..], &[OPEN], &[OPEN, 0x01, CLOSE], &full] {
            let rest = part.iter().cycle().take(MEGABYTE);
            let description: Vec<u8> = beginning.iter().chain(rest).copied().collect();
            comparison.describe(&description);
        }
    }
}
