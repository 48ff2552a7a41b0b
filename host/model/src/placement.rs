//! Where an argument lies in the call image.

use crate::kind::Kind;
use crate::offsets::{align_up, place_behind};
use crate::Device;

/// The register words `$4` to `$7`, then `$f12` to `$f15`.
pub(crate) const REGISTER_BYTES: usize = 32;

/// Argument bytes below this offset are carried by `$4` to `$7`.
pub(crate) const GENERAL_BYTES: usize = 16;

/// Where the argument area's first bytes on the stack lie in the image.
const STACK_START: usize = REGISTER_BYTES + GENERAL_BYTES;

/// The words `$f12` and `$f14` in the image; each begins a pair.
const FLOATING_PAIRS: [usize; 2] = [16, 24];

/// Where the last argument may end.
const END_LIMIT: usize = 1024;

/// An argument's offset, and the image bytes that carry it.
#[derive(Clone, Copy, Debug, Default, PartialEq, Eq)]
pub(crate) struct Location {
    /// Offset in the argument area, also of a float that isn't carried there.
    offset: usize,
    /// Image offset of the argument's first byte.
    start: usize,
    /// How many bytes lie there; the others begin at `rest`.
    together: usize,
}

impl Location {
    /// In a floating register or pair. The even register of a pair holds the
    /// low half of a double and the odd one the high half, whatever the byte
    /// order (request (i)), so a double begins in the odd register. A single
    /// is one word and has the even register.
    fn floating(pair: usize, offset: usize, size: usize) -> Self {
        Location {
            offset,
            start: pair + size - 4,
            together: 4,
        }
    }

    /// At an offset of the argument area, of which the first words are in
    /// registers.
    fn at_offset(offset: usize, size: usize) -> Self {
        if offset < GENERAL_BYTES {
            Location {
                offset,
                start: offset,
                together: size.min(GENERAL_BYTES - offset),
            }
        } else {
            Location {
                offset,
                start: REGISTER_BYTES + offset,
                together: size,
            }
        }
    }

    /// Image offset of the bytes that don't lie with the first ones: the even
    /// register for a double that begins in the odd one, else the stack. A
    /// single has no such bytes.
    fn rest(&self) -> usize {
        if (FLOATING_PAIRS[0]..REGISTER_BYTES).contains(&self.start) {
            self.start - 4
        } else {
            STACK_START
        }
    }

    pub(crate) fn offset(&self) -> usize {
        self.offset
    }

    /// Number of the floating register that carries the argument, or of the
    /// even one of its pair; 0 for an argument that goes by its offset.
    pub(crate) fn floating_register(&self) -> u32 {
        FLOATING_PAIRS
            .iter()
            .position(|&pair| (pair..pair + 8).contains(&self.start))
            .map_or(0, |pair| 12 + 2 * pair as u32)
    }

    /// Puts the argument's bytes where the image carries them.
    pub(crate) fn put(&self, bytes: &[u8], image: &mut [u8]) {
        let (here, rest) = bytes.split_at(self.together);
        copy(here, &mut image[self.start..]);
        copy(rest, &mut image[self.rest()..]);
    }

    /// Gets the argument's bytes from where the image carries them.
    pub(crate) fn get(&self, image: &[u8], bytes: &mut [u8]) {
        let (here, rest) = bytes.split_at_mut(self.together);
        copy_all(&image[self.start..], here);
        copy_all(&image[self.rest()..], rest);
    }
}

/// Copies all of `from` to the start of `to`.
///
/// Most pieces are nothing, a word or a doubleword, and a copy whose size is
/// known beforehand needs no call.
fn copy(from: &[u8], to: &mut [u8]) {
    match from.len() {
        0 => {}
        4 => to[..4].copy_from_slice(&from[..4]),
        8 => to[..8].copy_from_slice(&from[..8]),
        length => to[..length].copy_from_slice(from),
    }
}

/// Fills all of `to` from the start of `from`.
fn copy_all(from: &[u8], to: &mut [u8]) {
    copy(&from[..to.len()], to);
}

/// Lays arguments out one behind the other, as members of a structure.
#[derive(Clone, Debug, Default)]
pub(crate) struct ArgumentArea {
    /// End of the last argument, fill included.
    end: usize,
    /// Arguments placed so far.
    arguments: usize,
    /// How many of them went to floating registers.
    floating: usize,
    /// Arguments from here on match the ellipsis.
    variable: bool,
}

impl ArgumentArea {
    pub(crate) fn arguments(&self) -> usize {
        self.arguments
    }

    pub(crate) fn is_variable(&self) -> bool {
        self.variable
    }

    /// Passes the ellipsis marker.
    pub(crate) fn pass_marker(&mut self) {
        self.variable = true;
    }

    /// Places the next argument, or gives `None` if it would end beyond the
    /// limit.
    pub(crate) fn place(&mut self, device: Device, kind: Kind) -> Option<Location> {
        let size = kind.size();
        let (offset, end) = place_behind(self.end, kind);
        if end > END_LIMIT {
            return None;
        }
        let location = match self.floating_pair(device, kind) {
            Some(pair) => {
                self.floating += 1;
                Location::floating(pair, offset, size)
            }
            None => Location::at_offset(offset, size),
        };
        self.arguments += 1;
        self.end = end;
        Some(location)
    }

    /// The pair for the next argument. Only the first two arguments get one,
    /// the second only if the first has one too, and none after the marker or
    /// where there is no floating-point unit.
    fn floating_pair(&self, device: Device, kind: Kind) -> Option<usize> {
        let has_unit = device == Device::Fpu;
        let only_floats_so_far = self.floating == self.arguments;
        if has_unit && kind.is_floating() && only_floats_so_far && !self.variable {
            FLOATING_PAIRS.get(self.arguments).copied()
        } else {
            None
        }
    }

    /// The area's size: whole doublewords, and room for the four homes.
    pub(crate) fn size(&self) -> usize {
        align_up(self.end, 8).max(GENERAL_BYTES)
    }
}

#[cfg(test)]
mod tests {
    use super::*;

    fn place_all(device: Device, kinds: &[Kind]) -> (Vec<(usize, usize)>, usize) {
        let mut area = ArgumentArea::default();
        let locations = kinds
            .iter()
            .map(|&kind| area.place(device, kind).expect("within the limit"))
            .map(|location| (location.start, location.together))
            .collect();
        (locations, area.size())
    }

    #[test]
    fn a_structure_is_split_between_registers_and_stack() {
        let (locations, size) = place_all(Device::Fpu, &[Kind::Word, Kind::Structure(20)]);
        assert_eq!(locations, [(0, 4), (4, 12)]);
        assert_eq!(size, 24);

        let mut image = [0; 56];
        let bytes: Vec<u8> = (1..=20).collect();
        Location::at_offset(4, 20).put(&bytes, &mut image);
        assert_eq!(image[4..16], bytes[..12]);
        assert_eq!(image[48..56], bytes[12..]);
    }

    #[test]
    fn a_third_float_goes_by_its_offset() {
        let (locations, size) = place_all(Device::Fpu, &[Kind::Single, Kind::Double, Kind::Single]);
        assert_eq!(locations, [(16, 4), (28, 4), (48, 4)]);
        assert_eq!(size, 24);
    }

    #[test]
    fn a_double_in_a_pair_has_its_high_half_in_the_odd_register() {
        for pair in FLOATING_PAIRS {
            let location = Location::floating(pair, 0, 8);
            let mut image = [0; 48];
            location.put(&[1, 2, 3, 4, 5, 6, 7, 8], &mut image);
            assert_eq!(image[pair..pair + 8], [5, 6, 7, 8, 1, 2, 3, 4]);
            let mut bytes = [0; 8];
            location.get(&image, &mut bytes);
            assert_eq!(bytes, [1, 2, 3, 4, 5, 6, 7, 8]);
        }
    }

    #[test]
    fn a_float_behind_an_integer_gets_no_floating_register() {
        let (locations, _) = place_all(Device::Fpu, &[Kind::Word, Kind::Single]);
        assert_eq!(locations, [(0, 4), (4, 4)]);
        let (locations, _) = place_all(Device::Fpu, &[Kind::Single, Kind::Word, Kind::Single]);
        assert_eq!(locations, [(16, 4), (4, 4), (8, 4)]);
    }

    #[test]
    fn without_a_unit_floats_go_by_their_offsets() {
        let kinds = [Kind::Double, Kind::Single, Kind::Double];
        let (locations, size) = place_all(Device::NoFpu, &kinds);
        assert_eq!(locations, [(0, 8), (8, 4), (48, 8)]);
        assert_eq!(size, 24);
    }
}
