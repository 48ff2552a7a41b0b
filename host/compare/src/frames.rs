//! Groups about frames.

use compare::rng::Rng;
use o32::raw::Request;
use o32::Device;

use crate::comparison::{model_code, Code, Comparison};
use crate::lists::LONG;

/// `$16` to `$23`, `$28`, `$30` and `$31`.
pub const ALL_REGISTERS: u32 = 0xD0FF_0000;
const GLOBAL_POINTER: u32 = 1 << 28;
const RETURN_ADDRESS: u32 = 1 << 31;

/// More than any prologue or epilogue has.
const CODE_ROOM: usize = 128;

const LEAVES: [u32; 5] = [0, 1, 2, 0x8000_0000, u32::MAX];

/// At, below and beyond the limits, and what would overflow a sum.
const LOCALS: [u32; 16] = [
    0,
    1,
    3,
    4,
    7,
    8,
    9,
    16_376,
    16_377,
    16_383,
    16_384,
    16_385,
    0x7FFF_FFFF,
    0x8000_0000,
    u32::MAX - 7,
    u32::MAX,
];

const OUTGOING: [u32; 15] = [
    0,
    1,
    7,
    8,
    9,
    15,
    16,
    17,
    1_016,
    1_017,
    1_023,
    1_024,
    1_025,
    u32::MAX - 7,
    u32::MAX,
];

const GENERAL: [u32; 15] = [
    0,
    RETURN_ADDRESS,
    RETURN_ADDRESS | 1 << 16,
    1 << 30,
    GLOBAL_POINTER,
    GLOBAL_POINTER | RETURN_ADDRESS,
    GLOBAL_POINTER | 1 << 23 | 1 << 30,
    GLOBAL_POINTER | 1 << 23 | 1 << 30 | RETURN_ADDRESS,
    GLOBAL_POINTER | 1 << 29,
    ALL_REGISTERS,
    ALL_REGISTERS & !GLOBAL_POINTER,
    ALL_REGISTERS & !RETURN_ADDRESS,
    ALL_REGISTERS | 1 << 15,
    ALL_REGISTERS | 1 << 29,
    u32::MAX,
];

const PAIRS: [u32; 7] = [0, 1, 0b10_0001, 63, 64, 127, u32::MAX];

/// A layout and both codes in buffers that are long enough.
fn all_three(comparison: &mut Comparison, request: Request) {
    comparison.frame(request);
    for code in Code::BOTH {
        comparison.code(code, request, CODE_ROOM);
    }
}

/// Every request of numbers at, below and beyond their limits.
pub fn requests_at_the_limits() -> impl Iterator<Item = Request> {
    let masks = || {
        GENERAL
            .into_iter()
            .flat_map(|general| PAIRS.map(|pairs| (general, pairs)))
    };
    let areas = || {
        LOCALS
            .into_iter()
            .flat_map(|locals| OUTGOING.map(|outgoing| (locals, outgoing)))
    };
    LEAVES.into_iter().flat_map(move |leaf| {
        areas().flat_map(move |(locals, outgoing)| {
            masks().map(move |(general, pairs)| Request {
                leaf,
                locals,
                outgoing,
                general,
                pairs,
            })
        })
    })
}

pub fn at_the_limits(comparison: &mut Comparison, _: &mut Rng) {
    for request in requests_at_the_limits() {
        all_three(comparison, request);
    }
}

/// The masks of no, one or two registers, outside the saved ones too.
fn small_masks() -> impl Iterator<Item = u32> {
    let one = (0..32).map(|a| 1 << a);
    let two = (0..32).flat_map(|a| (0..a).map(move |b| 1 << a | 1 << b));
    std::iter::once(0).chain(one).chain(two)
}

pub fn small_masks_and_all_pairs(comparison: &mut Comparison, rng: &mut Rng) {
    for general in small_masks() {
        for pairs in 0..=70 {
            let leaf = u32::from(general & RETURN_ADDRESS == 0);
            let request = Request {
                leaf,
                locals: rng.below(40) as u32,
                outgoing: (1 - leaf) * rng.below(40) as u32,
                general,
                pairs,
            };
            all_three(comparison, request);
        }
        // Not a leaf, whether or not it saves its return address.
        let request = Request {
            general,
            ..Request::default()
        };
        all_three(comparison, request);
    }
}

/// All masks of the registers that may be saved, from none of them upward.
pub fn masks_of_saved() -> impl Iterator<Item = u32> {
    // The bits of all other registers are set, so that the carry passes them.
    let next = |&mask: &u32| (mask | !ALL_REGISTERS).checked_add(1);
    std::iter::successors(Some(0), next).map(|mask| mask & ALL_REGISTERS)
}

pub fn saved_masks(comparison: &mut Comparison, rng: &mut Rng) {
    for general in masks_of_saved() {
        // Only a leaf may leave `$31` out.
        for leaf in [0, 1] {
            for pairs in [0, 63, rng.below(64) as u32] {
                let request = Request {
                    leaf,
                    general,
                    pairs,
                    ..Request::default()
                };
                all_three(comparison, request);
            }
        }
    }
}

/// A number that is mostly within a limit, often at it.
fn number(rng: &mut Rng, limit: u32) -> u32 {
    match rng.below(10) {
        0 => 0,
        1 => limit - rng.below(10) as u32,
        2 => limit + rng.below(10) as u32,
        3 => rng.word(),
        _ => rng.below(limit as usize + 1) as u32,
    }
}

/// Pairs to save. Most requests have none where they are refused.
fn random_pairs(rng: &mut Rng, device: Device, limit: usize) -> u32 {
    if device == Device::NoFpu && rng.percent(70) {
        0
    } else {
        rng.below(limit) as u32
    }
}

pub fn random_request(rng: &mut Rng, device: Device) -> Request {
    let wild = rng.percent(15);
    let leaf = rng.percent(40);
    let mut general = rng.word() & ALL_REGISTERS;
    if !leaf && rng.percent(90) {
        general |= RETURN_ADDRESS;
    }
    if wild {
        general ^= 1 << rng.below(32);
    }
    Request {
        leaf: if leaf { rng.pick(&[1, 1, 2, 256]) } else { 0 },
        locals: number(rng, 16_384),
        outgoing: if leaf && rng.percent(80) {
            0
        } else {
            number(rng, 1_024)
        },
        general,
        pairs: random_pairs(rng, device, if wild { 80 } else { 64 }),
    }
}

pub fn random(comparison: &mut Comparison, rng: &mut Rng) {
    for _ in 0..60_000 {
        let request = random_request(rng, comparison.device());
        comparison.frame(request);
        for code in Code::BOTH {
            comparison.code(code, request, rng.below(CODE_ROOM));
        }
    }
}

/// A leaf that needs no frame, and functions that save all they may without
/// and with a floating-point unit.
const SMALLEST_AND_LARGEST: [Request; 3] = [
    Request {
        leaf: 1,
        locals: 0,
        outgoing: 0,
        general: 0,
        pairs: 0,
    },
    Request {
        leaf: 0,
        locals: 16_384,
        outgoing: 1_024,
        general: ALL_REGISTERS,
        pairs: 0,
    },
    Request {
        leaf: 0,
        locals: 16_384,
        outgoing: 1_024,
        general: ALL_REGISTERS,
        pairs: 63,
    },
];

/// Every code buffer length from none to a little beyond the code, and some
/// that don't fit into sixteen bits.
pub fn buffers(comparison: &mut Comparison, rng: &mut Rng) {
    let device = comparison.device();
    let random: Vec<Request> = (0..1_000).map(|_| random_request(rng, device)).collect();
    for request in SMALLEST_AND_LARGEST.into_iter().chain(random) {
        for code in Code::BOTH {
            let length = model_code(code, device, request, &mut [0; CODE_ROOM]).length as usize;
            for room in 0..=length + 3 {
                comparison.code(code, request, room);
            }
            if rng.percent(20) {
                comparison.code(code, request, LONG + rng.below(CODE_ROOM));
            }
        }
    }
}
