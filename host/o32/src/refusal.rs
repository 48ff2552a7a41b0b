//! Why there is no result.

use core::error::Error;
use core::fmt;

/// Why an operation was refused, where, and at which argument.
///
/// A refused operation has left its buffer as it was, if it has one.
///
/// | number | refused by | variant | place | argument |
/// |---:|---|---|---|---|
/// | 1 | make_plan, fill, signature, write, read, walk | [`UnknownKind`](Self::UnknownKind) | yes | |
/// | 2 | make_plan, fill, signature, write, read, walk | [`MisplacedMarker`](Self::MisplacedMarker) | yes | |
/// | 2 | make_plan, fill, signature, write, read, walk | [`MisplacedReturnPointer`](Self::MisplacedReturnPointer) | yes | yes |
/// | 3 | make_plan, fill, signature, write, read, walk | [`TooManyArguments`](Self::TooManyArguments) | yes | yes |
/// | 4 | fill, signature, write | [`BodyCutOff`](Self::BodyCutOff) | yes | yes |
/// | 5 | make_plan, fill, signature, write, read, walk | [`BeyondLimit`](Self::BeyondLimit) | yes | yes |
/// | 6 | read, walk | [`ImageLength`](Self::ImageLength) | | |
/// | 7 | fill, signature, write, read, walk | [`ShortOutput`](Self::ShortOutput) | | |
/// | 8 | read, walk | [`NoPromotion`](Self::NoPromotion) | yes | yes |
/// | 9 | layout, prologue, epilogue, check_prologue | [`Masks`](Self::Masks) | | |
/// | 10 | layout, prologue, epilogue, check_prologue | [`ReturnAddressNotSaved`](Self::ReturnAddressNotSaved) | | |
/// | 11 | layout, prologue, epilogue, check_prologue | [`Locals`](Self::Locals) | | |
/// | 12 | layout, prologue, epilogue, check_prologue | [`Outgoing`](Self::Outgoing) | | |
/// | 13 | prologue, epilogue | [`ShortCode`](Self::ShortCode) | | |
/// | 14 | layout, prologue, epilogue, check_prologue | [`PairsWithoutUnit`](Self::PairsWithoutUnit) | | |
/// | 15 | walk | [`NoMarker`](Self::NoMarker) | | |
/// | 16 | describe | [`MalformedDescription`](Self::MalformedDescription) | yes | |
/// | 17 | describe | [`TooDeep`](Self::TooDeep) | yes | |
/// | 18 | describe | [`MemberBeyondLimit`](Self::MemberBeyondLimit) | yes | |
/// | 19 | describe | [`EmptyStructure`](Self::EmptyStructure) | yes | |
/// | 19 | describe | [`NoKind`](Self::NoKind) | | |
/// | 20 | fill | [`PlanDiffers`](Self::PlanDiffers) | | |
/// | 21 | check_prologue | [`CodeLength`](Self::CodeLength) | | |
///
/// Records are checked from left to right, each by 1 to 5 in this order; 20, 15,
/// 6, 7 and 8 follow in this order when all records have passed. The checks of a
/// frame are 9, 14, 10, 11 and 12, in this order, then 13 where code is written
/// and 21 where it is checked. The bytes of a description are checked from left
/// to right, each by 16 to 19 in this order; `NoKind` follows when all bytes have
/// passed. The first that applies is answered.
///
/// A place is the offset of a kind byte in the list or the signature that was
/// given, or of a byte in the description. An argument is counted from 1; a
/// return pointer counts, the marker doesn't.
#[non_exhaustive]
#[derive(Clone, Copy, Debug, PartialEq, Eq, Hash)]
pub enum Refusal {
    /// 1: no argument has this kind.
    UnknownKind {
        /// Offset of the kind byte.
        place: usize,
    },
    /// 2: an ellipsis marker stands before every argument that is no return
    /// pointer, or is the second one.
    MisplacedMarker {
        /// Offset of the kind byte.
        place: usize,
    },
    /// 2: a return pointer is not the first record.
    MisplacedReturnPointer {
        /// Offset of the kind byte.
        place: usize,
        /// The argument that it would be.
        argument: usize,
    },
    /// 3: a 33rd argument.
    TooManyArguments {
        /// Offset of the kind byte.
        place: usize,
        /// The argument that it would be.
        argument: usize,
    },
    /// 4: the list ends within the argument's body.
    BodyCutOff {
        /// Offset of the kind byte.
        place: usize,
        /// The argument that it would be.
        argument: usize,
    },
    /// 5: the argument ends beyond offset 1,024.
    BeyondLimit {
        /// Offset of the kind byte.
        place: usize,
        /// The argument that it would be.
        argument: usize,
    },
    /// 6: the image's length isn't the one that the signature asks for.
    ImageLength,
    /// 7: the output buffer is shorter than the image, the list, the signature
    /// or the bodies.
    ShortOutput,
    /// 8: the image's word for a byte or halfword (kinds 01 to 04) is none that
    /// promotion gives, such as 00000080 for a signed byte.
    NoPromotion {
        /// Offset of the kind byte in the signature.
        place: usize,
        /// The argument whose word that is.
        argument: usize,
    },
    /// 9: the general mask names a register outside `$16` to `$23`, `$28`, `$30`
    /// and `$31`, or the pair mask is above 63.
    Masks,
    /// 10: the routine is no leaf, and `$31` isn't in the general mask.
    ReturnAddressNotSaved,
    /// 11: more than 16,384 bytes of locals.
    Locals,
    /// 12: more than 1,024 bytes of outgoing arguments, or any in a leaf.
    Outgoing,
    /// 13: the code buffer is shorter than the code.
    ShortCode,
    /// 14: the pair mask isn't 0, and the device has no floating-point unit.
    PairsWithoutUnit,
    /// 15: the signature has no ellipsis marker.
    NoMarker,
    /// 16: a byte of the description is unknown or can't stand there, is a count
    /// of 0, or is left over behind the structure; or bytes are missing.
    MalformedDescription {
        /// Offset of the byte; the description's length if bytes are missing.
        place: usize,
    },
    /// 17: a structure is opened at depth 7.
    TooDeep {
        /// Offset of the byte that opens it.
        place: usize,
    },
    /// 18: a member ends above 512 in its structure, all repeats counted.
    MemberBeyondLimit {
        /// Offset of the member's last byte in the description.
        place: usize,
    },
    /// 19: a structure is closed without a member.
    EmptyStructure {
        /// Offset of the byte that closes it.
        place: usize,
    },
    /// 19: no kind is that of a structure of this size and alignment.
    NoKind,
    /// 20: a number of the plan isn't the one that the list's signature has on
    /// the device.
    PlanDiffers,
    /// 21: the length of code to check is no multiple of 4, or above 256 bytes.
    CodeLength,
    /// A number that this crate has no name for. A later version may have one,
    /// so match it with `_`.
    #[non_exhaustive]
    Unknown {
        /// The number that the library answered.
        number: u32,
        /// The place that it answered, 0 where the refusal has none.
        place: usize,
        /// The argument that it answered, 0 where the refusal has none.
        argument: usize,
    },
}

impl Refusal {
    /// The refusal that the library answered with these numbers.
    pub(crate) fn of(number: u32, place: u32, argument: u32) -> Self {
        // A u32 fits usize: the build script refuses every other target.
        let (place, argument) = (place as usize, argument as usize);
        match number {
            1 => Refusal::UnknownKind { place },
            2 if argument == 0 => Refusal::MisplacedMarker { place },
            2 => Refusal::MisplacedReturnPointer { place, argument },
            3 => Refusal::TooManyArguments { place, argument },
            4 => Refusal::BodyCutOff { place, argument },
            5 => Refusal::BeyondLimit { place, argument },
            6 => Refusal::ImageLength,
            7 => Refusal::ShortOutput,
            8 => Refusal::NoPromotion { place, argument },
            9 => Refusal::Masks,
            10 => Refusal::ReturnAddressNotSaved,
            11 => Refusal::Locals,
            12 => Refusal::Outgoing,
            13 => Refusal::ShortCode,
            14 => Refusal::PairsWithoutUnit,
            15 => Refusal::NoMarker,
            16 => Refusal::MalformedDescription { place },
            17 => Refusal::TooDeep { place },
            18 => Refusal::MemberBeyondLimit { place },
            // No structure is closed by the first byte of a description.
            19 if place == 0 => Refusal::NoKind,
            19 => Refusal::EmptyStructure { place },
            20 => Refusal::PlanDiffers,
            21 => Refusal::CodeLength,
            _ => Refusal::Unknown {
                number,
                place,
                argument,
            },
        }
    }

    /// The refusal's number in the rules and in C.
    pub fn number(&self) -> u32 {
        match *self {
            Refusal::UnknownKind { .. } => 1,
            Refusal::MisplacedMarker { .. } | Refusal::MisplacedReturnPointer { .. } => 2,
            Refusal::TooManyArguments { .. } => 3,
            Refusal::BodyCutOff { .. } => 4,
            Refusal::BeyondLimit { .. } => 5,
            Refusal::ImageLength => 6,
            Refusal::ShortOutput => 7,
            Refusal::NoPromotion { .. } => 8,
            Refusal::Masks => 9,
            Refusal::ReturnAddressNotSaved => 10,
            Refusal::Locals => 11,
            Refusal::Outgoing => 12,
            Refusal::ShortCode => 13,
            Refusal::PairsWithoutUnit => 14,
            Refusal::NoMarker => 15,
            Refusal::MalformedDescription { .. } => 16,
            Refusal::TooDeep { .. } => 17,
            Refusal::MemberBeyondLimit { .. } => 18,
            Refusal::EmptyStructure { .. } | Refusal::NoKind => 19,
            Refusal::PlanDiffers => 20,
            Refusal::CodeLength => 21,
            Refusal::Unknown { number, .. } => number,
        }
    }

    /// Offset of the refused kind byte or byte of a description, where the
    /// refusal has a place. That of an unknown refusal is what the library
    /// answered.
    pub fn place(&self) -> Option<usize> {
        match *self {
            Refusal::UnknownKind { place }
            | Refusal::MisplacedMarker { place }
            | Refusal::MisplacedReturnPointer { place, .. }
            | Refusal::TooManyArguments { place, .. }
            | Refusal::BodyCutOff { place, .. }
            | Refusal::BeyondLimit { place, .. }
            | Refusal::NoPromotion { place, .. }
            | Refusal::MalformedDescription { place }
            | Refusal::TooDeep { place }
            | Refusal::MemberBeyondLimit { place }
            | Refusal::EmptyStructure { place }
            | Refusal::Unknown { place, .. } => Some(place),
            _ => None,
        }
    }

    /// The refused argument, counted from 1, where the refusal has one.
    pub fn argument(&self) -> Option<usize> {
        match *self {
            Refusal::MisplacedReturnPointer { argument, .. }
            | Refusal::TooManyArguments { argument, .. }
            | Refusal::BodyCutOff { argument, .. }
            | Refusal::BeyondLimit { argument, .. }
            | Refusal::NoPromotion { argument, .. } => Some(argument),
            Refusal::Unknown { argument, .. } if argument != 0 => Some(argument),
            _ => None,
        }
    }

    /// What is wrong, without where.
    fn meaning(&self) -> &'static str {
        match self {
            Refusal::UnknownKind { .. } => "unknown kind",
            Refusal::MisplacedMarker { .. } => "ellipsis marker misplaced or repeated",
            Refusal::MisplacedReturnPointer { .. } => "return pointer misplaced or repeated",
            Refusal::TooManyArguments { .. } => "more than 32 arguments",
            Refusal::BodyCutOff { .. } => "the list ends within an argument's body",
            Refusal::BeyondLimit { .. } => "the argument ends beyond offset 1,024",
            Refusal::ImageLength => "the image's length is not the one the signature asks for",
            Refusal::ShortOutput => "the output buffer is too short",
            Refusal::NoPromotion { .. } => {
                "the image's word for this kind is no promoted byte or halfword"
            }
            Refusal::Masks => {
                "the general mask names a register outside $16 to $23, $28, $30 and $31, \
                 or the pair mask is above 63"
            }
            Refusal::ReturnAddressNotSaved => "the routine is no leaf, and does not save $31",
            Refusal::Locals => "more than 16,384 bytes of locals",
            Refusal::Outgoing => "more than 1,024 bytes of outgoing arguments, or any in a leaf",
            Refusal::ShortCode => "the code buffer is too short",
            Refusal::PairsWithoutUnit => {
                "floating pairs to save on a device without a floating-point unit"
            }
            Refusal::NoMarker => "the signature has no ellipsis marker",
            Refusal::MalformedDescription { .. } => {
                "the description has a byte that can't stand there, or ends too early"
            }
            Refusal::TooDeep { .. } => "structures are nested more than 6 deep",
            Refusal::MemberBeyondLimit { .. } => "the member ends above 512 in its structure",
            Refusal::EmptyStructure { .. } => "the structure is closed without a member",
            Refusal::NoKind => "no kind has the structure's size and alignment",
            Refusal::PlanDiffers => {
                "the plan is not the one of the list's signature on this device"
            }
            Refusal::CodeLength => "the code's length is no multiple of 4, or above 256 bytes",
            Refusal::Unknown { .. } => "a refusal that this version of the crate does not know",
        }
    }
}

impl fmt::Display for Refusal {
    /// What is wrong, where, at which argument, and the number to look it up.
    fn fmt(&self, f: &mut fmt::Formatter<'_>) -> fmt::Result {
        write!(f, "{}", self.meaning())?;
        if let Some(place) = self.place() {
            write!(f, ", at byte {place}")?;
        }
        if let Some(argument) = self.argument() {
            write!(f, ", argument {argument}")?;
        }
        write!(f, " (refusal {})", self.number())
    }
}

impl Error for Refusal {}

#[cfg(test)]
mod tests {
    use super::Refusal;
    use std::string::ToString;

    #[test]
    fn numbers_are_kept() {
        for number in 0..=22 {
            assert_eq!(Refusal::of(number, 7, 3).number(), number);
            assert_eq!(Refusal::of(number, 0, 0).number(), number);
        }
        assert_eq!(Refusal::of(u32::MAX, 7, 3).number(), u32::MAX);
    }

    #[test]
    fn a_number_without_a_name_is_told_as_it_is() {
        let refusal = Refusal::of(28, 7, 3);
        assert_eq!(refusal.place(), Some(7));
        assert_eq!(refusal.argument(), Some(3));
        assert_eq!(
            refusal.to_string(),
            "a refusal that this version of the crate does not know, \
             at byte 7, argument 3 (refusal 28)"
        );
        assert_eq!(Refusal::of(28, 7, 0).argument(), None);
    }
}
