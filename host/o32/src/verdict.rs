//! What is said of code that is to be a prologue.

use core::fmt;

/// What the words of some code are to a frame, as
/// [`check_prologue`](crate::check_prologue) finds them.
#[must_use = "the code may be no prologue"]
#[derive(Clone, Copy, Debug, PartialEq, Eq, Hash)]
pub enum Verdict {
    /// 0: the code is a prologue for the request.
    Accepted,
    /// 16 to 31: this general register, `$16` to `$31`, is the first whose store
    /// is missing or is there more than once.
    General(u32),
    /// 52 to 63: each general register is stored once, and this floating
    /// register, `$f20` to `$f31`, is the first whose store is missing or is
    /// there more than once. The number is that of the register.
    Floating(u32),
    /// 255: another word than the frame's own and 00000000 is there; or the
    /// `addiu` is missing, is there more than once or stands behind a store. This
    /// comes before the others, wherever the word stands.
    OtherWords,
}

/// What a verdict has above the number of a floating register.
const FLOATING: u32 = 32;

const OTHER_WORDS: u32 = 255;

impl Verdict {
    /// The verdict that the library answered with this number.
    pub(crate) fn of(number: u32) -> Self {
        match number {
            0 => Verdict::Accepted,
            OTHER_WORDS => Verdict::OtherWords,
            _ if number < FLOATING => Verdict::General(number),
            _ => Verdict::Floating(number - FLOATING),
        }
    }

    /// Whether the code is a prologue for the request.
    pub fn is_accepted(self) -> bool {
        self == Verdict::Accepted
    }

    /// The verdict's number in the rules and in C.
    pub fn number(self) -> u32 {
        match self {
            Verdict::Accepted => 0,
            Verdict::General(register) => register,
            Verdict::Floating(register) => FLOATING.wrapping_add(register),
            Verdict::OtherWords => OTHER_WORDS,
        }
    }
}

impl fmt::Display for Verdict {
    /// What is wrong, and the number to look it up.
    fn fmt(&self, f: &mut fmt::Formatter<'_>) -> fmt::Result {
        match self {
            Verdict::Accepted => write!(f, "a prologue for the request")?,
            Verdict::General(register) => {
                write!(f, "the store of ${register} is missing or doubled")?;
            }
            Verdict::Floating(register) => {
                write!(f, "the store of $f{register} is missing or doubled")?;
            }
            Verdict::OtherWords => {
                write!(
                    f,
                    "other words than the request's, or no addiu once and first"
                )?;
            }
        }
        write!(f, " (verdict {})", self.number())
    }
}

#[cfg(test)]
mod tests {
    use super::Verdict;
    use std::string::ToString;

    #[test]
    fn numbers_are_kept() {
        for number in (0..=300).chain([u32::MAX]) {
            assert_eq!(Verdict::of(number).number(), number);
            assert_eq!(Verdict::of(number).is_accepted(), number == 0);
        }
    }

    #[test]
    fn registers_are_named() {
        assert_eq!(Verdict::of(31), Verdict::General(31));
        assert_eq!(
            Verdict::of(31).to_string(),
            "the store of $31 is missing or doubled (verdict 31)"
        );
        assert_eq!(Verdict::of(52), Verdict::Floating(20));
        assert_eq!(
            Verdict::of(52).to_string(),
            "the store of $f20 is missing or doubled (verdict 52)"
        );
    }
}
