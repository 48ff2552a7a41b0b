//! Lists, signatures, plans and images to compare on.
//!
//! The model serves here only to choose inputs: how long a body is, whether one
//! more kind would be refused, where a group of kinds ends, which plan a signature
//! has, and which image bytes carry something.

use compare::rng::Rng;
use o32::{Device, PLAN_WORDS, SIGNATURE_MAX};

use crate::comparison::model_device;

pub const MARKER: u8 = 0x0A;
pub const RETURN_POINTER: u8 = 0x0B;
const WORD: u8 = 0x05;

/// Kinds that a list can hold anywhere.
const PLAIN: [u8; 8] = [0x01, 0x02, 0x03, 0x04, 0x05, 0x06, 0x07, 0x08];
const FLOATS: [u8; 2] = [0x07, 0x08];

/// How a random signature is made.
#[derive(Clone, Copy, Debug)]
pub enum Shape {
    /// A few arguments of any kind.
    Usual,
    /// About as many arguments as a list may have.
    ManyArguments,
    /// Large structures, up to where an argument may end.
    ManyBytes,
    /// As many arguments and as many bytes as a list may have.
    Full,
}

impl Shape {
    pub const ALL: [Shape; 4] = [
        Shape::Usual,
        Shape::ManyArguments,
        Shape::ManyBytes,
        Shape::Full,
    ];

    pub const NEAR_LIMITS: [Shape; 3] = [Shape::ManyArguments, Shape::ManyBytes, Shape::Full];

    /// A few arguments most of the time.
    pub fn random(rng: &mut Rng) -> Shape {
        if rng.percent(75) {
            Shape::Usual
        } else {
            rng.pick(&Shape::NEAR_LIMITS)
        }
    }
}

/// Bytes of a kind's body, 0 for the marker and for unknown kinds.
pub fn body_length(kind: u8) -> usize {
    model::lengths(&[kind]).map_or(0, |lengths| lengths.list - 1)
}

/// Where a group of kinds ends that is laid from offset 0 on.
pub fn end_of(kinds: &[u8]) -> usize {
    model::lay(0, kinds).map_or(0, |laid| laid.end)
}

/// Whether two groups leave the same end whichever stands first.
pub fn leave_same_end(first: &[u8], second: &[u8]) -> bool {
    end_of(&[first, second].concat()) == end_of(&[second, first].concat())
}

/// A kind that is an argument, with a liking for the interesting ones.
pub fn argument_kind(rng: &mut Rng) -> u8 {
    match rng.below(100) {
        0..=29 => rng.pick(&PLAIN),
        30..=39 => WORD,
        40..=59 => rng.pick(&FLOATS),
        60..=74 => rng.within(0x40..=0x47) as u8,
        75..=84 => rng.within(0x40..=0x7F) as u8,
        85..=88 => rng.within(0x80..=0xBF) as u8,
        89..=96 => rng.within(0xC0..=0xC7) as u8,
        _ => rng.within(0xC0..=0xFF) as u8,
    }
}

/// Any kind that is known, the marker and the return pointer among them.
pub fn known_kind(rng: &mut Rng) -> u8 {
    match rng.below(10) {
        0 => MARKER,
        1 => RETURN_POINTER,
        _ => argument_kind(rng),
    }
}

/// A signature that nothing refuses.
pub fn accepted_signature(rng: &mut Rng, shape: Shape) -> Vec<u8> {
    let mut signature = match shape {
        Shape::Usual => {
            let arguments = rng.within(0..=9);
            signature_from(rng, arguments, argument_kind)
        }
        Shape::ManyArguments => {
            let arguments = rng.within(28..=33);
            signature_from(rng, arguments, small_kind)
        }
        Shape::ManyBytes => {
            let mut signature = signature_from(rng, 0, argument_kind);
            fill_up(rng, &mut signature);
            signature
        }
        Shape::Full => full_signature(rng),
    };
    if rng.percent(40) {
        insert_marker(rng, &mut signature);
    }
    signature
}

/// Likewise, most of the time with a marker.
pub fn variadic_signature(rng: &mut Rng, shape: Shape) -> Vec<u8> {
    let mut signature = accepted_signature(rng, shape);
    // A place may be none for a marker, and a second marker is never put in.
    for _ in 0..3 {
        insert_marker(rng, &mut signature);
    }
    signature
}

/// Perhaps a return pointer, perhaps a float, then as many of the arguments as
/// are accepted.
fn signature_from(rng: &mut Rng, arguments: usize, kind: fn(&mut Rng) -> u8) -> Vec<u8> {
    let mut signature = Vec::new();
    if rng.percent(20) {
        signature.push(RETURN_POINTER);
    }
    if rng.percent(50) {
        signature.push(rng.pick(&FLOATS));
    }
    for _ in 0..arguments {
        push_if_accepted(&mut signature, kind(rng));
    }
    signature
}

/// A kind of which 32 go well below the limit of bytes.
fn small_kind(rng: &mut Rng) -> u8 {
    if rng.percent(70) {
        rng.pick(&PLAIN)
    } else {
        rng.within(0x40..=0x4F) as u8
    }
}

/// 32 arguments that end at 1,024: structures of 32 bytes, of which each in
/// turn gives some words to another.
fn full_signature(rng: &mut Rng) -> Vec<u8> {
    let mut words = [8u8; 32];
    for giver in 0..words.len() {
        let taker = rng.below(words.len());
        let gift = rng.below(usize::from(words[giver])) as u8;
        if taker != giver && words[taker] + gift <= 16 {
            words[giver] -= gift;
            words[taker] += gift;
        }
    }
    let mut signature: Vec<u8> = words.iter().map(|words| 0x3F + 4 * words).collect();
    for (place, words) in words.into_iter().enumerate() {
        let others: &[u8] = match words {
            1 => &[0x01, 0x02, 0x03, 0x04, 0x05, 0x07, RETURN_POINTER],
            2 => &[0x06, 0x08, 0xC0],
            _ => continue,
        };
        replace_if_accepted(&mut signature, place, rng.pick(others));
    }
    signature
}

/// Puts another kind in a place unless it would be refused there.
fn replace_if_accepted(signature: &mut [u8], place: usize, kind: u8) {
    let before = std::mem::replace(&mut signature[place], kind);
    if model::lengths(signature).is_none() {
        signature[place] = before;
    }
}

/// Adds a kind unless it would be refused.
fn push_if_accepted(signature: &mut Vec<u8>, kind: u8) -> bool {
    signature.push(kind);
    let accepted = model::lengths(signature).is_some();
    if !accepted {
        signature.pop();
    }
    accepted
}

/// Adds large structures while they go in, then smaller and smaller kinds.
fn fill_up(rng: &mut Rng, signature: &mut Vec<u8>) {
    let large = [0x60..=0xFF, 0x90..=0xFF, 0xF0..=0xFF];
    let large = large[rng.below(large.len())].clone();
    while push_if_accepted(signature, rng.within(large.clone()) as u8) {}
    for range in [0x40..=0xBF, 0xC0..=0xC7, 0x40..=0x50] {
        for _ in 0..rng.below(4) {
            push_if_accepted(signature, rng.within(range.clone()) as u8);
        }
    }
    for _ in 0..rng.below(6) {
        push_if_accepted(signature, rng.pick(&PLAIN));
    }
}

/// Puts a marker where one may stand; the earlier places are liked most.
pub fn insert_marker(rng: &mut Rng, signature: &mut Vec<u8>) {
    let places = signature.len() + 1;
    let limit = if rng.percent(60) {
        places.min(4)
    } else {
        places
    };
    let place = rng.below(limit);
    signature.insert(place, MARKER);
    if model::lengths(signature).is_none() {
        signature.remove(place);
    }
}

/// A list with the signature's kinds and random bodies.
pub fn list_of(rng: &mut Rng, signature: &[u8]) -> Vec<u8> {
    let mut list = Vec::new();
    for &kind in signature {
        list.push(kind);
        let start = list.len();
        list.resize(start + body_length(kind), 0);
        rng.fill(&mut list[start..]);
        // The sign's edges are worth more than chance gives them.
        if list.len() > start && rng.percent(30) {
            list[start] = rng.pick(&[0x00, 0x01, 0x7F, 0x80, 0xFF]);
        }
    }
    list
}

/// A list behind which one to four more records stand, though it is as long as
/// it may be or nearly. Now and then the end is cut off.
pub fn list_beyond_the_limits(rng: &mut Rng) -> Vec<u8> {
    let shape = rng.pick(&Shape::NEAR_LIMITS);
    let mut signature = accepted_signature(rng, shape);
    for _ in 0..rng.within(1..=4) {
        signature.push(known_kind(rng));
    }
    let mut list = list_of(rng, &signature);
    if rng.percent(30) {
        let cut = rng.below(12).min(list.len());
        list.truncate(list.len() - cut);
    }
    list
}

/// A signature that nothing refuses, and a list of it that was damaged.
pub fn damaged_list(rng: &mut Rng) -> (Vec<u8>, Vec<u8>) {
    let shape = Shape::random(rng);
    let signature = accepted_signature(rng, shape);
    let mut list = list_of(rng, &signature);
    for _ in 0..rng.within(1..=2) {
        damage(rng, &mut list, &kind_offsets(&signature));
    }
    (signature, list)
}

/// Kind bytes and noise end to end, as no writer of lists would make them.
pub fn list_of_noise(rng: &mut Rng) -> Vec<u8> {
    let length = rng.within(0..=40);
    (0..length)
        .map(|_| {
            if rng.percent(50) {
                known_kind(rng)
            } else {
                rng.byte()
            }
        })
        .collect()
}

/// A list with records put behind it until it has `length` bytes, the last one
/// perhaps cut off.
pub fn lengthened(rng: &mut Rng, mut list: Vec<u8>, length: usize) -> Vec<u8> {
    while list.len() < length {
        let kind = known_kind(rng);
        list.extend(list_of(rng, &[kind]));
    }
    list.truncate(length);
    list
}

/// The plan of a signature; zeros if the signature is refused.
pub fn plan_of(device: Device, signature: &[u8]) -> Vec<u32> {
    let mut plan = vec![0; PLAN_WORDS];
    model::make_plan(model_device(device), signature, &mut plan);
    plan
}

/// The plan of a list's signature; zeros if the list is refused.
pub fn plan_of_list(device: Device, list: &[u8]) -> Vec<u32> {
    let mut signature = [0; SIGNATURE_MAX];
    let answer = model::signature(list, &mut signature);
    if answer.refusal == 0 {
        plan_of(device, &signature[..answer.length as usize])
    } else {
        vec![0; PLAN_WORDS]
    }
}

/// The image of a list; empty if the list is refused.
pub fn image_of(device: Device, list: &[u8]) -> Vec<u8> {
    let mut image = vec![0; 1056];
    let length = model::write(model_device(device), list, &mut image).length;
    image.truncate(length as usize);
    image
}

/// For an accepted signature: `FF` for image bytes that carry something, 0 for
/// those that carry nothing.
pub fn carried_bytes(device: Device, signature: &[u8]) -> Vec<u8> {
    carried_from(device, signature, 0)
}

/// Likewise, but `FF` only for image bytes that carry an argument from a place
/// of the signature on.
pub fn carried_from(device: Device, signature: &[u8], from: usize) -> Vec<u8> {
    let mut list = Vec::new();
    for (place, &kind) in signature.iter().enumerate() {
        // A promoted argument is carried by the whole word, like a word.
        let kind = if (0x01..=0x04).contains(&kind) {
            WORD
        } else {
            kind
        };
        let content = if place < from { 0 } else { 0xFF };
        list.push(kind);
        list.resize(list.len() + body_length(kind), content);
    }
    image_of(device, &list)
}

/// Puts random bytes where an image carries nothing.
pub fn fill_holes(rng: &mut Rng, image: &mut [u8], carried: &[u8]) {
    for (byte, &carried) in image.iter_mut().zip(carried) {
        if carried == 0 {
            *byte = rng.byte();
        }
    }
}

/// The image of a list with random bodies and random bytes in its holes. The
/// floating words are holes where there is no floating-point unit.
pub fn written_image(rng: &mut Rng, device: Device, signature: &[u8]) -> Vec<u8> {
    let mut image = image_of(device, &list_of(rng, signature));
    fill_holes(rng, &mut image, &carried_bytes(device, signature));
    image
}

/// An image with random bytes. Many words are small or sign-extended, so that
/// promotions are often proper.
pub fn random_image(rng: &mut Rng, length: usize) -> Vec<u8> {
    let mut image = vec![0; length];
    rng.fill(&mut image);
    let half_short = rng.percent(70);
    for word in image.chunks_mut(4) {
        if half_short && rng.percent(85) {
            let extension = rng.pick(&[0x00, 0xFF]);
            let from = rng.pick(&[2, 3]).min(word.len());
            word[..from].fill(extension);
        }
    }
    image
}

/// Changes one byte of an image, most of the time by one bit.
pub fn flip(rng: &mut Rng, image: &mut [u8]) {
    let at = rng.below(image.len());
    let bit = 1 << rng.below(8);
    image[at] ^= rng.pick(&[bit, bit, 0x80, 0xFF]);
}

/// Damages a list or signature: a byte changed, cut off or put in. `kinds` are
/// the offsets of its kind bytes, which are hit more often than chance would.
pub fn damage(rng: &mut Rng, bytes: &mut Vec<u8>, kinds: &[usize]) {
    let at = if kinds.is_empty() || rng.percent(40) {
        rng.below(bytes.len() + 1)
    } else {
        rng.pick(kinds).min(bytes.len())
    };
    let new = if rng.percent(60) {
        known_kind(rng)
    } else {
        rng.byte()
    };
    match rng.below(5) {
        0 if at < bytes.len() => bytes[at] ^= 1 << rng.below(8),
        1 if at < bytes.len() => bytes[at] = new,
        2 => bytes.truncate(at),
        3 if at < bytes.len() => drop(bytes.remove(at)),
        _ => bytes.insert(at, new),
    }
}

/// The offsets of the kind bytes in a list with these kinds.
pub fn kind_offsets(signature: &[u8]) -> Vec<usize> {
    signature
        .iter()
        .scan(0, |next, &kind| {
            let offset = *next;
            *next += 1 + body_length(kind);
            Some(offset)
        })
        .collect()
}

/// A buffer length near `length`: mostly enough, often just so.
pub fn room_near(rng: &mut Rng, length: usize) -> usize {
    match rng.below(20) {
        0..=12 => length + rng.below(4),
        13..=14 => length.saturating_sub(1),
        15..=16 => rng.below(length + 1),
        17 => 0,
        _ => length + rng.below(100),
    }
}
