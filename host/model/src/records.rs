//! Lists and signatures, one record at a time.

use crate::kind::Kind;
use crate::placement::{ArgumentArea, Location, REGISTER_BYTES};
use crate::{Device, Lengths, Refusal};

/// Arguments in a list, a return pointer counted and the marker not.
pub(crate) const ARGUMENT_LIMIT: usize = 32;

/// All arguments and the marker.
const RECORD_LIMIT: usize = ARGUMENT_LIMIT + 1;

/// Whether bodies stand behind the kind bytes.
#[derive(Clone, Copy, Debug, PartialEq, Eq)]
enum Form {
    List,
    Signature,
}

/// A record that nothing refuses.
#[derive(Clone, Copy, Debug)]
pub(crate) struct Record {
    /// Offset of the kind byte.
    pub(crate) place: usize,
    /// Number of the argument, from 1; 0 for the marker.
    pub(crate) argument: u32,
    pub(crate) kind: Kind,
    /// Of no account for the marker, which is no argument.
    pub(crate) location: Location,
}

/// The records of an accepted list or signature, each with its location.
pub(crate) struct Records {
    records: [Record; RECORD_LIMIT],
    count: usize,
    area: ArgumentArea,
    has_return_pointer: bool,
}

impl Records {
    /// The records of a list.
    #[inline]
    pub(crate) fn of_list(device: Device, list: &[u8]) -> Result<Records, Refusal> {
        let mut records = Records::empty();
        records.take_all(device, list, Form::List)?;
        Ok(records)
    }

    /// The records of a signature.
    #[inline]
    pub(crate) fn of_signature(device: Device, signature: &[u8]) -> Result<Records, Refusal> {
        let mut records = Records::empty();
        records.take_all(device, signature, Form::Signature)?;
        Ok(records)
    }

    #[inline]
    fn empty() -> Records {
        let unused = Record {
            place: 0,
            argument: 0,
            kind: Kind::Marker,
            location: Location::default(),
        };
        Records {
            records: [unused; RECORD_LIMIT],
            count: 0,
            area: ArgumentArea::default(),
            has_return_pointer: false,
        }
    }

    pub(crate) fn as_slice(&self) -> &[Record] {
        &self.records[..self.count]
    }

    pub(crate) fn area_size(&self) -> usize {
        self.area.size()
    }

    pub(crate) fn image_length(&self) -> usize {
        REGISTER_BYTES + self.area_size()
    }

    /// The lengths of image and list, the list's with all bodies.
    pub(crate) fn lengths(&self) -> Lengths {
        Lengths {
            image: self.image_length(),
            list: self
                .as_slice()
                .iter()
                .map(|record| 1 + record.kind.body())
                .sum(),
        }
    }

    fn take_all(&mut self, device: Device, bytes: &[u8], form: Form) -> Result<(), Refusal> {
        let mut next = 0;
        while let Some(&byte) = bytes.get(next) {
            let room = bytes.len() - next - 1;
            let kind = self.take(device, byte, next, form, room)?;
            next += match form {
                Form::List => 1 + kind.body(),
                Form::Signature => 1,
            };
        }
        Ok(())
    }

    /// Takes the record of a kind byte with `room` bytes behind it.
    fn take(
        &mut self,
        device: Device,
        byte: u8,
        place: usize,
        form: Form,
        room: usize,
    ) -> Result<Kind, Refusal> {
        let kind = Kind::of(byte).ok_or(Refusal::at(Refusal::UNKNOWN_KIND, place, 0))?;
        let argument = self.argument_number(kind);
        let refused = |number| Refusal::at(number, place, argument);
        if !self.may_stand_here(kind) {
            return Err(refused(Refusal::MISPLACED));
        }
        if kind != Kind::Marker && self.area.arguments() == ARGUMENT_LIMIT {
            return Err(refused(Refusal::TOO_MANY_ARGUMENTS));
        }
        if form == Form::List && room < kind.body() {
            return Err(refused(Refusal::CUT_OFF));
        }
        let location = match kind {
            Kind::Marker => {
                self.area.pass_marker();
                Location::default()
            }
            _ => self
                .area
                .place(device, kind)
                .ok_or(refused(Refusal::BEYOND_LIMIT))?,
        };

        self.has_return_pointer |= kind == Kind::ReturnPointer;
        self.records[self.count] = Record {
            place,
            argument,
            kind,
            location,
        };
        self.count += 1;
        Ok(kind)
    }

    /// The number of the argument that a record here is or would be, whether or
    /// not it is refused; 0 for the marker, which is none.
    fn argument_number(&self, kind: Kind) -> u32 {
        match kind {
            Kind::Marker => 0,
            _ => self.area.arguments() as u32 + 1,
        }
    }

    /// The marker stands once, behind an argument that is no return pointer; a
    /// return pointer stands first.
    fn may_stand_here(&self, kind: Kind) -> bool {
        let arguments = self.area.arguments();
        match kind {
            Kind::Marker => {
                !self.area.is_variable() && arguments > usize::from(self.has_return_pointer)
            }
            Kind::ReturnPointer => arguments == 0,
            _ => true,
        }
    }
}
