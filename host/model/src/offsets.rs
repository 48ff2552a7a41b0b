//! The offsets of arguments that lie one behind the other, as members of a
//! structure.

use crate::kind::Kind;

/// Where the arguments of a group lie.
#[derive(Clone, Debug, PartialEq, Eq)]
pub struct Laid {
    /// The offset of each argument, in their order.
    pub offsets: Vec<usize>,
    /// Where the last argument ends, fill included; the start if there is none.
    pub end: usize,
}

/// Lays a group of kinds from the offset `start` on.
///
/// This is the offset rule alone: no end is too far, nothing is said of
/// registers, and a marker or a return pointer may stand anywhere. A marker is
/// no argument, so nothing is laid for it. Unknown kinds have no size; `None` if
/// there is one.
pub fn lay(start: usize, kinds: &[u8]) -> Option<Laid> {
    let mut laid = Laid {
        offsets: Vec::new(),
        end: start,
    };
    for &byte in kinds {
        let kind = Kind::of(byte)?;
        if kind != Kind::Marker {
            let (offset, end) = place_behind(laid.end, kind);
            laid.offsets.push(offset);
            laid.end = end;
        }
    }
    Some(laid)
}

/// The offset of an argument behind one that ends at `end`, and its own end. A
/// structure is rounded up to whole words, so that its end includes the fill.
pub(crate) fn place_behind(end: usize, kind: Kind) -> (usize, usize) {
    let offset = align_up(end, kind.alignment());
    (offset, align_up(offset + kind.size(), 4))
}

/// The next multiple of an alignment, which is a power of two.
pub(crate) fn align_up(offset: usize, alignment: usize) -> usize {
    (offset + alignment - 1) & !(alignment - 1)
}

#[cfg(test)]
mod tests {
    use super::*;

    #[track_caller]
    fn check(start: usize, kinds: &[u8], offsets: &[usize], end: usize) {
        let laid = lay(start, kinds).expect("known kinds");
        assert_eq!((laid.offsets.as_slice(), laid.end), (offsets, end));
    }

    #[test]
    fn each_at_the_next_multiple_of_its_alignment() {
        check(0, &[0x05, 0x08, 0x01, 0x03, 0xC0], &[0, 8, 16, 20, 24], 32);
        check(4, &[0x05, 0x08, 0x01, 0x03, 0xC0], &[4, 8, 16, 20, 24], 32);
        check(12, &[0x07, 0x06, 0x0B], &[12, 16, 24], 28);
    }

    #[test]
    fn the_end_includes_the_fill() {
        check(0, &[0x40], &[0], 4);
        check(4, &[0x44, 0x45], &[4, 12], 20);
    }

    #[test]
    fn nothing_is_laid_for_a_marker() {
        check(4, &[0x0A], &[], 4);
        check(0, &[0x05, 0x0A, 0x05], &[0, 4], 8);
    }

    #[test]
    fn nothing_is_laid_for_no_kinds() {
        check(0, &[], &[], 0);
        check(20, &[], &[], 20);
    }

    #[test]
    fn no_end_is_too_far() {
        check(0, &[0xFF, 0xFF, 0x05, 0xFF], &[0, 512, 1024, 1032], 1544);
        check(4096, &[0x05, 0x08], &[4096, 4104], 4112);
    }

    #[test]
    fn unknown_kinds_are_not_laid() {
        assert_eq!(lay(0, &[0x05, 0x09]), None);
        assert_eq!(lay(0, &[0x3F, 0x05]), None);
    }
}
