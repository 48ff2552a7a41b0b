//! Kind bytes.

/// How a short integer becomes a word.
#[derive(Clone, Copy, Debug, PartialEq, Eq)]
pub(crate) enum Promotion {
    SignedByte,
    UnsignedByte,
    SignedHalfword,
    UnsignedHalfword,
}

impl Promotion {
    /// Bytes before promotion.
    pub(crate) fn body(self) -> usize {
        match self {
            Promotion::SignedByte | Promotion::UnsignedByte => 1,
            Promotion::SignedHalfword | Promotion::UnsignedHalfword => 2,
        }
    }

    /// The word that the low bytes of `word` become.
    pub(crate) fn extend(self, word: u32) -> u32 {
        match self {
            Promotion::SignedByte => i32::from(word as i8) as u32,
            Promotion::UnsignedByte => u32::from(word as u8),
            Promotion::SignedHalfword => i32::from(word as i16) as u32,
            Promotion::UnsignedHalfword => u32::from(word as u16),
        }
    }
}

/// What a kind byte stands for.
#[derive(Clone, Copy, Debug, PartialEq, Eq)]
pub(crate) enum Kind {
    Short(Promotion),
    Word,
    Long,
    Single,
    Double,
    Marker,
    ReturnPointer,
    /// A structure of that many bytes, aligned to words.
    Structure(u16),
    /// A structure of that many bytes, aligned to doublewords.
    WideStructure(u16),
}

impl Kind {
    /// The kind of a kind byte, `None` if it is unknown.
    pub(crate) fn of(byte: u8) -> Option<Kind> {
        let number = u16::from(byte);
        Some(match byte {
            0x01 => Kind::Short(Promotion::SignedByte),
            0x02 => Kind::Short(Promotion::UnsignedByte),
            0x03 => Kind::Short(Promotion::SignedHalfword),
            0x04 => Kind::Short(Promotion::UnsignedHalfword),
            0x05 => Kind::Word,
            0x06 => Kind::Long,
            0x07 => Kind::Single,
            0x08 => Kind::Double,
            0x0A => Kind::Marker,
            0x0B => Kind::ReturnPointer,
            0x40..=0x7F => Kind::Structure(number - 0x3F),
            0x80..=0xBF => Kind::Structure(64 + 4 * (number - 0x7F)),
            0xC0..=0xFF => Kind::WideStructure(8 * (number - 0xBF)),
            _ => return None,
        })
    }

    /// Bytes of the body in a list.
    pub(crate) fn body(self) -> usize {
        match self {
            Kind::Short(promotion) => promotion.body(),
            Kind::Marker => 0,
            Kind::Word | Kind::Single | Kind::ReturnPointer => 4,
            Kind::Long | Kind::Double => 8,
            Kind::Structure(size) | Kind::WideStructure(size) => usize::from(size),
        }
    }

    /// Bytes of the argument after promotion, without fill.
    pub(crate) fn size(self) -> usize {
        match self {
            Kind::Short(_) => 4,
            _ => self.body(),
        }
    }

    pub(crate) fn alignment(self) -> usize {
        match self {
            Kind::Long | Kind::Double | Kind::WideStructure(_) => 8,
            _ => 4,
        }
    }

    pub(crate) fn is_floating(self) -> bool {
        matches!(self, Kind::Single | Kind::Double)
    }
}

#[cfg(test)]
mod tests {
    use super::*;

    fn body_and_alignment(byte: u8) -> (usize, usize) {
        let kind = Kind::of(byte).expect("a known kind");
        (kind.body(), kind.alignment())
    }

    #[test]
    fn structures_at_the_ends_of_their_ranges() {
        assert_eq!(body_and_alignment(0x40), (1, 4));
        assert_eq!(body_and_alignment(0x45), (6, 4));
        assert_eq!(body_and_alignment(0x53), (20, 4));
        assert_eq!(body_and_alignment(0x7F), (64, 4));
        assert_eq!(body_and_alignment(0x80), (68, 4));
        assert_eq!(body_and_alignment(0xBF), (320, 4));
        assert_eq!(body_and_alignment(0xC0), (8, 8));
        assert_eq!(body_and_alignment(0xFF), (512, 8));
    }

    #[test]
    fn bodies_and_alignments_of_single_kinds() {
        let table = [1, 2, 3, 4, 5, 6, 7, 8, 0x0B].map(body_and_alignment);
        let bodies = table.map(|(body, _)| body);
        let alignments = table.map(|(_, alignment)| alignment);
        assert_eq!(bodies, [1, 1, 2, 2, 4, 8, 4, 8, 4]);
        assert_eq!(alignments, [4, 4, 4, 4, 4, 8, 4, 8, 4]);
    }

    #[test]
    fn unknown_kinds() {
        let unknown = (0..=0xFF).filter(|&byte| Kind::of(byte).is_none());
        let expected = [0x00, 0x09].into_iter().chain(0x0C..=0x3F);
        assert!(unknown.eq(expected));
    }

    #[test]
    fn promotion_extends_the_sign_or_zero() {
        assert_eq!(Promotion::SignedByte.extend(0x80), 0xFFFF_FF80);
        assert_eq!(Promotion::SignedByte.extend(0x7F), 0x0000_007F);
        assert_eq!(Promotion::UnsignedByte.extend(0x80), 0x0000_0080);
        assert_eq!(Promotion::SignedHalfword.extend(0x8000), 0xFFFF_8000);
        assert_eq!(Promotion::SignedHalfword.extend(0x00FF), 0x0000_00FF);
        assert_eq!(Promotion::UnsignedHalfword.extend(0x8000), 0x0000_8000);
    }
}
