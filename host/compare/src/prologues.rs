//! Groups about code that is to be a prologue.

use compare::rng::Rng;
use o32::raw::Request;
use o32::{Device, CHECKED_MAX};

use crate::comparison::{model_code, Code, Comparison};
use crate::frames::{masks_of_saved, random_request, requests_at_the_limits, ALL_REGISTERS};
use crate::lists::LONG;

const OTHER_WORDS: u32 = 255;

/// What a verdict has above the number of a floating register.
const FLOATING: u32 = 32;

const SW: u32 = 0b10_1011;
const SWC1: u32 = 0b11_1001;

/// `addiu $sp,$sp,0`.
const ADDIU_SP: u32 = 0x27BD_0000;

/// The most words that are looked at.
const MOST_WORDS: usize = CHECKED_MAX / 4;

/// More than any prologue or epilogue has.
const CODE_ROOM: usize = 128;

/// A request that is not refused, with the words of its own prologue.
struct Frame {
    request: Request,
    words: Vec<u32>,
}

impl Frame {
    fn of(device: Device, request: Request) -> Option<Self> {
        let mut code = [0; CODE_ROOM];
        let answer = model_code(Code::Prologue, device, request, &mut code);
        (answer.refusal == 0).then(|| Frame {
            request,
            words: words_of(&code[..answer.length as usize]),
        })
    }

    fn random(rng: &mut Rng, device: Device) -> Self {
        loop {
            let request = random_request(rng, device);
            if let Some(frame) = Frame::of(device, request) {
                return frame;
            }
        }
    }

    /// One that has a store at least.
    fn with_stores(rng: &mut Rng, device: Device) -> Self {
        loop {
            let frame = Frame::random(rng, device);
            if !frame.stores().is_empty() {
                return frame;
            }
        }
    }

    /// None in a frame of no bytes.
    fn addiu(&self) -> &[u32] {
        &self.words[..self.words.len().min(1)]
    }

    fn stores(&self) -> &[u32] {
        &self.words[self.words.len().min(1)..]
    }
}

fn words_of(code: &[u8]) -> Vec<u32> {
    code.chunks_exact(4)
        .map(|bytes| {
            bytes
                .iter()
                .fold(0, |word, &byte| word << 8 | u32::from(byte))
        })
        .collect()
}

fn bytes_of(words: &[u32]) -> Vec<u8> {
    words.iter().flat_map(|word| word.to_be_bytes()).collect()
}

fn opcode(word: u32) -> u32 {
    word >> 26
}

/// The register that a store is of.
fn register(word: u32) -> u32 {
    word >> 16 & 31
}

/// How a verdict names the register that a store is of.
fn name(store: u32) -> u32 {
    register(store) + if opcode(store) == SWC1 { FLOATING } else { 0 }
}

fn shuffle(rng: &mut Rng, words: &mut [u32]) {
    for last in (1..words.len()).rev() {
        words.swap(last, rng.below(last + 1));
    }
}

fn shuffled(rng: &mut Rng, words: &[u32]) -> Vec<u32> {
    let mut words = words.to_vec();
    shuffle(rng, &mut words);
    words
}

/// Puts a word anywhere but before the first `from`.
fn insert(rng: &mut Rng, words: &mut Vec<u32>, from: usize, word: u32) {
    words.insert(rng.within(from..=words.len()), word);
}

/// Puts words of zeros anywhere: often none, now and then as many as there may
/// be.
fn pad(rng: &mut Rng, words: &mut Vec<u32>) {
    let room = MOST_WORDS.saturating_sub(words.len());
    let zeros = match rng.below(10) {
        0..=3 => 0,
        4..=7 => rng.below(4).min(room),
        8 => rng.below(room + 1),
        _ => room,
    };
    for _ in 0..zeros {
        insert(rng, words, 0, 0);
    }
}

/// Checks words with zeros put in anywhere.
fn check_padded(
    comparison: &mut Comparison,
    rng: &mut Rng,
    request: Request,
    mut words: Vec<u32>,
    verdict: u32,
) {
    pad(rng, &mut words);
    comparison.check_prologue_is(request, &bytes_of(&words), verdict);
}

/// Prologues as the rules write them are accepted.
pub fn own(comparison: &mut Comparison, rng: &mut Rng) {
    let device = comparison.device();
    for general in masks_of_saved() {
        for leaf in [0, 1] {
            for pairs in [0, 63, rng.below(64) as u32] {
                let request = Request {
                    leaf,
                    general,
                    pairs,
                    ..Request::default()
                };
                if let Some(frame) = Frame::of(device, request) {
                    comparison.check_prologue_is(request, &bytes_of(&frame.words), 0);
                }
            }
        }
    }
    for _ in 0..30_000 {
        let frame = Frame::random(rng, device);
        comparison.check_prologue_is(frame.request, &bytes_of(&frame.words), 0);
    }
}

/// The library alone: it must accept what it writes.
pub fn as_written(comparison: &mut Comparison, rng: &mut Rng) {
    for _ in 0..30_000 {
        let request = random_request(rng, comparison.device());
        comparison.check_own_prologue(request);
    }
}

/// The stores in any order, and zeros anywhere.
pub fn reordered(comparison: &mut Comparison, rng: &mut Rng) {
    for _ in 0..60_000 {
        let frame = Frame::random(rng, comparison.device());
        let stores = shuffled(rng, frame.stores());
        let words = [frame.addiu(), &stores].concat();
        check_padded(comparison, rng, frame.request, words, 0);
    }
}

/// Every code of at most `length` words of a few.
fn all_of(comparison: &mut Comparison, request: Request, few: &[u32], length: usize) {
    fn go_on(
        comparison: &mut Comparison,
        request: Request,
        few: &[u32],
        words: &mut Vec<u32>,
        length: usize,
    ) {
        comparison.check_prologue(request, &bytes_of(words));
        if length == 0 {
            return;
        }
        for &word in few {
            words.push(word);
            go_on(comparison, request, few, words, length - 1);
            words.pop();
        }
    }
    go_on(comparison, request, few, &mut Vec::new(), length);
}

/// A leaf that saves these, with so many bytes of locals.
fn leaf(locals: u32, general: u32, pairs: u32) -> Request {
    Request {
        leaf: 1,
        locals,
        outgoing: 0,
        general,
        pairs,
    }
}

/// Small frames, with every short code of their own words, of zeros and of one
/// other word. The first has no bytes.
pub fn of_few_words(comparison: &mut Comparison, _: &mut Rng) {
    let (none, small) = (leaf(0, 0, 0), leaf(8, 0, 0));
    all_of(comparison, none, &[0, ADDIU_SP, 0x27BD_FFF8, 1], 6);
    all_of(comparison, small, &[0, ADDIU_SP, 0x27BD_FFF8, 1], 6);
    for (request, length) in [
        (leaf(0, 1 << 16, 0), 6),
        (leaf(0, 1 << 23 | 1 << 31, 0), 6),
        (leaf(0, 1 << 16 | 1 << 28 | 1 << 30, 0), 5),
        (leaf(0, 0, 1), 6),
        (leaf(0, 1 << 17, 0b10_0000), 5),
        (leaf(0, 0, 0b11), 4),
    ] {
        let Some(frame) = Frame::of(comparison.device(), request) else {
            continue;
        };
        all_of(
            comparison,
            request,
            &[&frame.words[..], &[0]].concat(),
            length,
        );
        let with_other = [&frame.words[..], &[0, 0xAFB2_0000]].concat();
        all_of(comparison, request, &with_other, length - 1);
    }
}

/// One store left out, doubled, or more than doubled.
pub fn one_count_wrong(comparison: &mut Comparison, rng: &mut Rng) {
    for _ in 0..3_000 {
        let frame = Frame::with_stores(rng, comparison.device());
        for &store in frame.stores() {
            let most = MOST_WORDS - frame.words.len();
            for more in [1, 2, 3, rng.within(4..=most)] {
                let mut words = [frame.addiu(), &shuffled(rng, frame.stores())].concat();
                for _ in 0..more {
                    insert(rng, &mut words, 1, store);
                }
                check_padded(comparison, rng, frame.request, words, name(store));
            }
            let mut words = [frame.addiu(), &shuffled(rng, frame.stores())].concat();
            words.retain(|&word| word != store);
            check_padded(comparison, rng, frame.request, words, name(store));
        }
    }
}

/// Every store as often as chance has it: the first in the order of verdicts is
/// named, wherever it stands.
pub fn several_counts_wrong(comparison: &mut Comparison, rng: &mut Rng) {
    for _ in 0..60_000 {
        let frame = Frame::random(rng, comparison.device());
        let often = rng.pick(&[30, 80, 95]);
        let mut stores = Vec::new();
        let mut verdict = 0;
        for &store in frame.stores() {
            let times = if rng.percent(often) {
                1
            } else {
                rng.pick(&[0, 0, 2, 3])
            };
            stores.extend([store].repeat(times));
            if times != 1 && (verdict == 0 || name(store) < verdict) {
                verdict = name(store);
            }
        }
        shuffle(rng, &mut stores);
        let words = [frame.addiu(), &stores].concat();
        check_padded(comparison, rng, frame.request, words, verdict);
    }
}

/// The `addiu` missing, doubled, tripled, or behind some of the stores; beside
/// that a store may be missing or doubled.
pub fn addiu_elsewhere(comparison: &mut Comparison, rng: &mut Rng) {
    for _ in 0..15_000 {
        let frame = Frame::with_stores(rng, comparison.device());
        let request = frame.request;
        let mut stores = shuffled(rng, frame.stores());
        match rng.below(4) {
            0 => drop(stores.pop()),
            1 => stores.push(stores[0]),
            _ => {}
        }
        let addiu = frame.words[0];
        check_padded(comparison, rng, request, stores.clone(), OTHER_WORDS);
        let mut words = [&[addiu], &stores[..]].concat();
        for _ in 0..rng.within(1..=3) {
            insert(rng, &mut words, 0, addiu);
        }
        check_padded(comparison, rng, request, words, OTHER_WORDS);
        if !stores.is_empty() {
            insert(rng, &mut stores, 1, addiu);
            check_padded(comparison, rng, request, stores, OTHER_WORDS);
        }
    }
}

/// Another word, mostly one that is near to the frame's own.
fn other_word(rng: &mut Rng, frame: &Frame) -> u32 {
    let word = if frame.words.is_empty() {
        ADDIU_SP
    } else {
        rng.pick(&frame.words)
    };
    let general = rng.within(16..=31) as u32;
    let floating = rng.within(20..=31) as u32;
    let other = rng.below(32) as u32;
    let offset = word & 0xFFFF;
    match rng.below(12) {
        // Another place, near or far.
        0 => word.wrapping_add(rng.pick(&[4, 8, u32::MAX - 3, u32::MAX - 7, 1])),
        1 => word & 0xFFFF_0000 | rng.word() & 0xFFFF,
        2 => word ^ 0x8000,
        // Another base or another register.
        3 => word & !(31 << 21) | other << 21,
        4 => word & !(31 << 16) | other << 16,
        // Another instruction.
        5 => word & !(63 << 26) | (rng.below(64) as u32) << 26,
        6 => word ^ (SW ^ SWC1) << 26,
        // A register that may be saved, named or not, at the place of another.
        7 => SW << 26 | 29 << 21 | general << 16 | offset,
        8 => SWC1 << 26 | 29 << 21 | floating << 16 | offset,
        // Another frame's `addiu`.
        9 => ADDIU_SP | rng.pick(&[0, 8, 0xFFF8, offset ^ 8, offset.wrapping_neg()]) & 0xFFFF,
        // One that is no near one.
        10 => rng.pick(&[1, 0x40, 0x0200_2021, 0x03E0_0008, u32::MAX]),
        _ => rng.word(),
    }
}

/// A word that isn't zeros, nor one of the frame's own.
fn word_of_another(rng: &mut Rng, frame: &Frame) -> u32 {
    loop {
        let word = other_word(rng, frame);
        if word != 0 && !frame.words.contains(&word) {
            return word;
        }
    }
}

/// Another word beside those of the prologue or in place of one.
pub fn other_words(comparison: &mut Comparison, rng: &mut Rng) {
    for _ in 0..120_000 {
        let frame = Frame::random(rng, comparison.device());
        let mut words = [frame.addiu(), &shuffled(rng, frame.stores())].concat();
        for _ in 0..rng.pick(&[1, 1, 1, 2, 5]) {
            let other = word_of_another(rng, &frame);
            if words.is_empty() || rng.percent(50) {
                insert(rng, &mut words, 0, other);
            } else {
                let at = rng.below(words.len());
                words[at] = other;
            }
        }
        check_padded(comparison, rng, frame.request, words, OTHER_WORDS);
    }
}

/// Two stores at the places of each other; a pair's halves are such stores.
pub fn exchanged_places(comparison: &mut Comparison, rng: &mut Rng) {
    for _ in 0..20_000 {
        let frame = Frame::with_stores(rng, comparison.device());
        let stores = frame.stores();
        let (one, other) = (rng.below(stores.len()), rng.below(stores.len()));
        if one == other {
            continue;
        }
        let at_place_of = |store: u32, other: u32| store & 0xFFFF_0000 | other & 0xFFFF;
        let mut exchanged = stores.to_vec();
        exchanged[one] = at_place_of(stores[one], stores[other]);
        exchanged[other] = at_place_of(stores[other], stores[one]);
        shuffle(rng, &mut exchanged);
        let words = [frame.addiu(), &exchanged].concat();
        check_padded(comparison, rng, frame.request, words, OTHER_WORDS);
    }
}

/// Every bit of every word, zeros too: no two words of a prologue differ in one
/// bit only.
pub fn flipped_bits(comparison: &mut Comparison, rng: &mut Rng) {
    for _ in 0..200 {
        let frame = Frame::random(rng, comparison.device());
        let mut words = [frame.addiu(), &shuffled(rng, frame.stores()), &[0]].concat();
        for at in 0..words.len() {
            for bit in 0..32 {
                words[at] ^= 1 << bit;
                comparison.check_prologue_is(frame.request, &bytes_of(&words), OTHER_WORDS);
                words[at] ^= 1 << bit;
            }
        }
    }
}

/// A word that prologues have, or one near to it.
fn likely_word(rng: &mut Rng, frame: &Frame) -> u32 {
    match rng.below(20) {
        0..=4 => 0,
        5..=17 if !frame.words.is_empty() => rng.pick(&frame.words),
        18 => other_word(rng, frame),
        _ => 0,
    }
}

/// Words as chance has them, up to as many as are looked at, and what else is
/// code: epilogues, and prologues of other requests.
pub fn of_noise(comparison: &mut Comparison, rng: &mut Rng) {
    let device = comparison.device();
    for _ in 0..60_000 {
        let frame = Frame::random(rng, device);
        let mut words = frame.addiu().to_vec();
        for _ in 0..rng.below(MOST_WORDS) {
            words.push(likely_word(rng, &frame));
        }
        comparison.check_prologue(frame.request, &bytes_of(&words));
    }
    for _ in 0..20_000 {
        let frame = Frame::random(rng, device);
        let mut code = [0; CODE_ROOM];
        let request = random_request(rng, device);
        let length = model_code(rng.pick(&Code::BOTH), device, request, &mut code).length;
        comparison.check_prologue(frame.request, &code[..length as usize]);
        // A request like it, with one register more or less.
        let near = Request {
            general: frame.request.general ^ (1 << rng.below(32)) & ALL_REGISTERS,
            ..frame.request
        };
        comparison.check_prologue(near, &bytes_of(&frame.words));
    }
}

/// Code of so many bytes that begins with a prologue and goes on with zeros.
fn of_length(frame: &Frame, length: usize) -> Vec<u8> {
    let mut code = bytes_of(&frame.words);
    code.resize(length, 0);
    code
}

/// All lengths to some beyond the most that is looked at, and some that don't
/// fit into sixteen bits.
pub fn lengths(comparison: &mut Comparison, rng: &mut Rng) {
    let device = comparison.device();
    let small = [leaf(0, 0, 0), leaf(8, 0, 0)].map(|request| Frame::of(device, request));
    let random: Vec<Frame> = (0..100).map(|_| Frame::random(rng, device)).collect();
    for frame in small.into_iter().flatten().chain(random) {
        for length in 0..=300 {
            let code = of_length(&frame, length);
            if length % 4 == 0 && length >= 4 * frame.words.len() && length <= CHECKED_MAX {
                comparison.check_prologue_is(frame.request, &code, 0);
            } else {
                comparison.check_prologue(frame.request, &code);
            }
            let noise: Vec<u8> = (0..length).map(|_| rng.byte()).collect();
            comparison.check_prologue(frame.request, &noise);
        }
        for length in [LONG - 4, LONG, LONG + 1, LONG + CHECKED_MAX, 1 << 20] {
            comparison.check_prologue(frame.request, &of_length(&frame, length));
        }
    }
}

/// Requests at, below and beyond their limits, with code of any length: refusals
/// come in their order.
pub fn of_refused_requests(comparison: &mut Comparison, rng: &mut Rng) {
    let device = comparison.device();
    for request in requests_at_the_limits() {
        let length = match rng.below(4) {
            0 => 4 * rng.below(MOST_WORDS + 1),
            1 => rng.below(300),
            2 => rng.within(248..=264),
            _ => rng.below(16),
        };
        let code = match Frame::of(device, request) {
            Some(frame) if rng.percent(50) => of_length(&frame, length),
            _ => (0..length).map(|_| rng.pick(&[0, 0xFF])).collect(),
        };
        comparison.check_prologue(request, &code);
    }
    for _ in 0..40_000 {
        let request = random_request(rng, device);
        let length = rng.below(300);
        comparison.check_prologue(request, &vec![0; length]);
    }
}
