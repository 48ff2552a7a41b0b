//! Plans: where the arguments of a signature lie, worked out once for all lists
//! that have it.

use std::iter;

use crate::image::put_image;
use crate::kind::Kind;
use crate::offsets::align_up;
use crate::placement::GENERAL_BYTES;
use crate::records::{Record, Records, ARGUMENT_LIMIT};
use crate::walker::ArgumentPointer;
use crate::{Answer, Device, Refusal};

/// Numbers of a placement.
const PLACEMENT_WORDS: usize = 3;

/// Numbers of a plan: all its placements, then the count and the area's size.
const PLAN_WORDS: usize = PLACEMENT_WORDS * ARGUMENT_LIMIT + 2;

/// Where an argument lies.
#[derive(Clone, Copy, Debug, Default, PartialEq, Eq)]
pub struct Placement {
    /// The kind byte. What it means isn't enough: two kinds may have the same
    /// length and alignment, and their plans differ all the same.
    pub kind: u32,
    /// Offset in the argument area, also of a float that isn't carried there.
    pub offset: u32,
    /// 12 or 14 for an argument in `$f12` or `$f14` or the pair that begins
    /// there, 0 for any other.
    pub register: u32,
}

/// The placements of all arguments, the marker being none of them.
#[derive(Clone, Copy, Debug, Default, PartialEq, Eq)]
pub struct Plan {
    /// In the order of the arguments; all zero from `count` on.
    pub placements: [Placement; 32],
    /// How many arguments there are.
    pub count: u32,
    /// Bytes of the argument area.
    pub area: u32,
}

impl Plan {
    /// The plan's numbers: kind, offset and register of all 32 placements, then
    /// the count, then the area's size.
    pub fn words(&self) -> [u32; 98] {
        let mut words = [0; PLAN_WORDS];
        let entries = words.chunks_exact_mut(PLACEMENT_WORDS);
        for (entry, placement) in entries.zip(&self.placements) {
            entry.copy_from_slice(&[placement.kind, placement.offset, placement.register]);
        }
        words[PLAN_WORDS - 2] = self.count;
        words[PLAN_WORDS - 1] = self.area;
        words
    }

    /// The plan of these placements, its area still without a size.
    fn of(placements: impl Iterator<Item = Placement>) -> Plan {
        let mut plan = Plan::default();
        for (entry, placement) in plan.placements.iter_mut().zip(placements) {
            *entry = placement;
            plan.count += 1;
        }
        plan
    }
}

/// Puts the kind bytes of a list, in order, at the start of `out`.
pub fn signature(list: &[u8], out: &mut [u8]) -> Answer {
    Answer::from_result(put_signature(list, out))
}

/// Makes the plan of a signature and puts its numbers at the start of `plan`.
pub fn make_plan(device: Device, signature: &[u8], plan: &mut [u32]) -> Answer {
    Answer::from_result(put_plan(device, signature, plan))
}

/// Turns a list into a call image at the start of `image`, if `plan` holds just
/// the numbers of the plan that the list's signature and the device give.
pub fn fill(device: Device, plan: &[u32], list: &[u8], image: &mut [u8]) -> Answer {
    Answer::from_result(fill_image(device, plan, list, image))
}

fn put_signature(list: &[u8], out: &mut [u8]) -> Result<usize, Refusal> {
    // Any device will do: no refusal of a list depends on it.
    let records = Records::of_list(Device::Fpu, list)?;
    let records = records.as_slice();
    let out = out
        .get_mut(..records.len())
        .ok_or(Refusal::nowhere(Refusal::SHORT_OUTPUT))?;
    for (byte, record) in out.iter_mut().zip(records) {
        *byte = list[record.place];
    }
    Ok(records.len())
}

fn put_plan(device: Device, signature: &[u8], words: &mut [u32]) -> Result<usize, Refusal> {
    let records = Records::of_signature(device, signature)?;
    let words = words
        .get_mut(..PLAN_WORDS)
        .ok_or(Refusal::nowhere(Refusal::SHORT_OUTPUT))?;
    words.copy_from_slice(&plan_of_signature(&records, signature).words());
    Ok(PLAN_WORDS)
}

fn fill_image(
    device: Device,
    plan: &[u32],
    list: &[u8],
    image: &mut [u8],
) -> Result<usize, Refusal> {
    let records = Records::of_list(device, list)?;
    // The plan comes from anyone, so none of its numbers is used for anything
    // but this. Another number of words makes a difference too.
    if *plan != plan_of_list(device, records.as_slice(), list).words() {
        return Err(Refusal::nowhere(Refusal::PLAN_DIFFERS));
    }
    put_image(&records, list, image)
}

/// The records that are arguments: all but the marker.
fn arguments(records: &[Record]) -> impl Iterator<Item = &Record> {
    records.iter().filter(|record| record.kind != Kind::Marker)
}

/// The plan of an accepted signature, by the places where the writer puts the
/// arguments.
fn plan_of_signature(records: &Records, signature: &[u8]) -> Plan {
    let placements = arguments(records.as_slice()).map(|record| Placement {
        kind: u32::from(signature[record.place]),
        offset: record.location.offset() as u32,
        register: record.location.floating_register(),
    });
    Plan {
        area: records.area_size() as u32,
        ..Plan::of(placements)
    }
}

/// The plan that an accepted list must be filled under.
///
/// It goes by the kinds alone and steps over the arguments as a routine does. If
/// it took the places where the writer puts them, as the maker of plans does, a
/// mistake there would be in both plans and no comparison would show it.
fn plan_of_list(device: Device, records: &[Record], list: &[u8]) -> Plan {
    let floating = floating_registers(device, records);
    let registers = floating.into_iter().chain(iter::repeat(0));
    let mut pointer = ArgumentPointer::default();
    let placements = arguments(records)
        .zip(registers)
        .map(|(record, register)| Placement {
            kind: u32::from(list[record.place]),
            offset: pointer.pass(record.kind) as u32,
            register,
        });
    let plan = Plan::of(placements);
    Plan {
        area: align_up(pointer.offset(), 8).max(GENERAL_BYTES) as u32,
        ..plan
    }
}

/// The floating registers of the first two arguments, 0 for none. The first
/// record is the first argument, as a marker can't stand there; where the
/// second one is the marker, no other argument stands before any marker.
fn floating_registers(device: Device, records: &[Record]) -> [u32; 2] {
    let is_floating = |at: usize| {
        records
            .get(at)
            .is_some_and(|record| record.kind.is_floating())
    };
    match (device, is_floating(0), is_floating(1)) {
        (Device::Fpu, true, true) => [12, 14],
        (Device::Fpu, true, false) => [12, 0],
        (Device::Fpu, false, _) | (Device::NoFpu, _, _) => [0, 0],
    }
}
