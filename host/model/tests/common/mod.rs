//! What the tests of the model share.

// No test uses all of it.
#![allow(dead_code)]

use std::fmt::Debug;

use model::{Answer, Device};

/// Where a word of the image lies.
#[derive(Clone, Copy, Debug)]
pub enum At {
    /// `$4` to `$7`.
    General(usize),
    /// `$f12` to `$f15`.
    Floating(usize),
    /// An offset of the argument area.
    Stack(usize),
}

impl At {
    pub fn word(self) -> usize {
        match self {
            At::General(number) => number - 4,
            At::Floating(number) => number - 12 + 4,
            At::Stack(offset) => 8 + offset / 4,
        }
    }
}

/// Bytes from hexadecimal digits; spaces don't count.
pub fn hex(text: &str) -> Vec<u8> {
    let digits: Vec<u8> = text
        .chars()
        .filter(|c| !c.is_whitespace())
        .map(|c| c.to_digit(16).expect("a hexadecimal digit") as u8)
        .collect();
    digits
        .chunks(2)
        .map(|pair| pair[0] << 4 | pair[1])
        .collect()
}

/// The image of an area of `area` bytes with the given words, zero elsewhere.
pub fn image_of(area: usize, words: &[(At, u32)]) -> Vec<u8> {
    image_with(0, area, words)
}

/// Likewise with a word of any content everywhere else.
pub fn image_with(elsewhere: u32, area: usize, words: &[(At, u32)]) -> Vec<u8> {
    let mut image = vec![elsewhere; 8 + area / 4];
    for &(at, word) in words {
        image[at.word()] = word;
    }
    image.iter().flat_map(|word| word.to_be_bytes()).collect()
}

pub fn success(length: usize) -> Answer {
    Answer {
        refusal: 0,
        place: 0,
        argument: 0,
        length: length as u32,
    }
}

pub fn refused(refusal: u32, place: u32, argument: u32) -> Answer {
    Answer {
        refusal,
        place,
        argument,
        length: 0,
    }
}

/// What must be the same on both devices, as all refusals of lists and
/// signatures are.
pub fn on_both_devices<T: PartialEq + Debug>(answer_on: impl Fn(Device) -> T) -> T {
    let answer = answer_on(Device::Fpu);
    assert_eq!(answer_on(Device::NoFpu), answer);
    answer
}
