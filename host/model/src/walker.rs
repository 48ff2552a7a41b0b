//! The walk of a routine with an ellipsis over its arguments.

use crate::image::checked_output;
use crate::kind::Kind;
use crate::offsets::align_up;
use crate::placement::{GENERAL_BYTES, REGISTER_BYTES};
use crate::records::{Record, Records};
use crate::{Answer, Device, Refusal};

/// Takes the arguments behind the marker as a routine with an ellipsis does,
/// and puts their bodies end to end at the start of `bodies`.
pub fn walk(device: Device, signature: &[u8], image: &[u8], bodies: &mut [u8]) -> Answer {
    Answer::from_result(walk_image(device, signature, image, bodies))
}

fn walk_image(
    device: Device,
    signature: &[u8],
    image: &[u8],
    bodies: &mut [u8],
) -> Result<usize, Refusal> {
    let records = Records::of_signature(device, signature)?;
    let (named, unnamed) =
        around_marker(records.as_slice()).ok_or(Refusal::nowhere(Refusal::NO_MARKER))?;
    let length = unnamed.iter().map(|record| record.kind.body()).sum();
    let mut rest = checked_output(&records, image, length, bodies)?;

    let memory = spilled(image);
    let mut pointer = ArgumentPointer::default();
    for record in named {
        pointer.pass(record.kind);
    }
    for record in unnamed {
        let (body, behind) = rest.split_at_mut(record.kind.body());
        body.copy_from_slice(pointer.take(record.kind, &memory));
        rest = behind;
    }
    Ok(length)
}

/// The arguments before the marker and those behind it.
fn around_marker(records: &[Record]) -> Option<(&[Record], &[Record])> {
    let marker = records
        .iter()
        .position(|record| record.kind == Kind::Marker)?;
    Some((&records[..marker], &records[marker + 1..]))
}

/// The argument area once the routine has stored `$4` to `$7` in their homes.
fn spilled(image: &[u8]) -> Vec<u8> {
    let mut memory = image[REGISTER_BYTES..].to_vec();
    memory[..GENERAL_BYTES].copy_from_slice(&image[..GENERAL_BYTES]);
    memory
}

/// Where the routine goes on in the argument area.
#[derive(Default)]
pub(crate) struct ArgumentPointer {
    offset: usize,
}

impl ArgumentPointer {
    /// The end of the last argument that was passed, fill included.
    pub(crate) fn offset(&self) -> usize {
        self.offset
    }

    /// Goes past an argument and gives the offset where it lies. A float in a
    /// floating register has its offset too, though nothing need lie there.
    pub(crate) fn pass(&mut self, kind: Kind) -> usize {
        let offset = align_up(self.offset, kind.alignment());
        self.offset = align_up(offset + kind.size(), 4);
        offset
    }

    /// Takes the next argument from memory: of a byte or halfword the last
    /// bytes of its word, of all others every byte.
    fn take<'a>(&mut self, kind: Kind, memory: &'a [u8]) -> &'a [u8] {
        let argument = &memory[self.pass(kind)..][..kind.size()];
        &argument[kind.size() - kind.body()..]
    }
}
