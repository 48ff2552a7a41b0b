//! Call images and frames of the MIPS O32 convention in ordinary Rust.
//!
//! This is the yardstick for the proved library: the same operations with
//! the same answers, written from the rules alone. Every operation checks
//! first and writes into the caller's buffer only when nothing refuses.

mod checker;
mod description;
mod frame;
mod image;
mod kind;
mod offsets;
mod placement;
mod plan;
mod records;
mod walker;

pub use checker::{check_prologue, Verdict};
pub use description::{cause_of_refusal, describe, Cause, Structure};
pub use frame::{epilogue, frame, prologue, Layout, Request};
pub use image::{read, write};
pub use offsets::{lay, Laid};
pub use plan::{fill, make_plan, signature, Placement, Plan};
pub use walker::walk;

use records::Records;

/// The board that a call or a frame is for.
#[derive(Clone, Copy, Debug, PartialEq, Eq)]
pub enum Device {
    /// It has a floating-point unit.
    Fpu,
    /// It has none, so no floating register is used.
    NoFpu,
}

/// What every operation answers that writes into a buffer.
#[derive(Clone, Copy, Debug, Default, PartialEq, Eq)]
pub struct Answer {
    /// 0 on success, otherwise the number of the refusal.
    pub refusal: u32,
    /// Offset of the refused kind byte, 0 where the refusal has no place.
    pub place: u32,
    /// Number of the refused argument, from 1; 0 where the refusal has none.
    pub argument: u32,
    /// Bytes written, or words where a plan is made; 0 on a refusal.
    pub length: u32,
}

impl Answer {
    fn from_result(result: Result<usize, Refusal>) -> Self {
        match result {
            Ok(length) => Answer {
                length: length as u32,
                ..Answer::default()
            },
            Err(refusal) => Answer {
                refusal: refusal.number,
                // No list gets further than its limits, some 1,600 bytes.
                place: refusal.place as u32,
                argument: refusal.argument,
                length: 0,
            },
        }
    }
}

/// Why an operation refuses, where, and at which argument.
#[derive(Clone, Copy, Debug, PartialEq, Eq)]
pub(crate) struct Refusal {
    number: u32,
    place: usize,
    argument: u32,
}

impl Refusal {
    pub(crate) const UNKNOWN_KIND: u32 = 1;
    pub(crate) const MISPLACED: u32 = 2;
    pub(crate) const TOO_MANY_ARGUMENTS: u32 = 3;
    pub(crate) const CUT_OFF: u32 = 4;
    pub(crate) const BEYOND_LIMIT: u32 = 5;
    pub(crate) const IMAGE_LENGTH: u32 = 6;
    pub(crate) const SHORT_OUTPUT: u32 = 7;
    pub(crate) const NO_PROMOTION: u32 = 8;
    pub(crate) const MASKS: u32 = 9;
    pub(crate) const RETURN_ADDRESS_NOT_SAVED: u32 = 10;
    pub(crate) const LOCALS: u32 = 11;
    pub(crate) const OUTGOING: u32 = 12;
    pub(crate) const SHORT_CODE: u32 = 13;
    pub(crate) const PAIRS_WITHOUT_UNIT: u32 = 14;
    pub(crate) const NO_MARKER: u32 = 15;
    pub(crate) const PLAN_DIFFERS: u32 = 20;
    pub(crate) const CODE_LENGTH: u32 = 21;

    pub(crate) fn at(number: u32, place: usize, argument: u32) -> Self {
        Refusal {
            number,
            place,
            argument,
        }
    }

    pub(crate) fn nowhere(number: u32) -> Self {
        Refusal::at(number, 0, 0)
    }
}

/// The lengths that go with an accepted signature.
#[derive(Clone, Copy, Debug, PartialEq, Eq)]
pub struct Lengths {
    /// Bytes of the call image.
    pub image: usize,
    /// Bytes of the list that the image reads as.
    pub list: usize,
}

/// The lengths for a signature, if none of its kinds is refused.
pub fn lengths(signature: &[u8]) -> Option<Lengths> {
    // Any device will do: offsets don't depend on it, nor do refusals here.
    Records::of_signature(Device::Fpu, signature)
        .ok()
        .map(|records| records.lengths())
}
