//! Sizes, alignments and kinds of described structures, and what is refused.

mod common;

use model::{cause_of_refusal, describe, Cause, Structure};

use common::hex;

fn structure(size: u32, alignment: u32, kind: u32) -> Structure {
    Structure {
        refusal: 0,
        place: 0,
        size,
        alignment,
        kind,
    }
}

fn refused(refusal: u32, place: usize) -> Structure {
    Structure {
        refusal,
        place: place as u32,
        ..Structure::default()
    }
}

/// The description gives this size, alignment and kind.
#[track_caller]
fn check(description: &str, size: u32, alignment: u32, kind: u32) {
    let answer = describe(&hex(description));
    assert_eq!(answer, structure(size, alignment, kind), "{description}");
}

/// The description is refused for this cause at this place.
#[track_caller]
fn check_refused(description: &str, cause: Cause, place: usize) {
    let description = hex(description);
    let answer = describe(&description);
    assert_eq!(
        answer,
        refused(cause.number(), place),
        "{description:02X?}: {cause:?}"
    );
    assert_eq!(cause_of_refusal(&description), Some(cause));
}

/// Members that are single bytes, `size` of them.
fn bytes(size: usize) -> Vec<u8> {
    let (full, rest) = (size / 255, size % 255);
    let mut members = [0x12, 0xFF, 0x01].repeat(full);
    if rest > 0 {
        members.extend([0x12, rest as u8, 0x01]);
    }
    members
}

/// A structure around members.
fn around(members: &[u8]) -> Vec<u8> {
    [&[0x10], members, &[0x11]].concat()
}

#[test]
fn each_scalar_alone() {
    check("10 01 11", 1, 1, 0x40);
    check("10 02 11", 1, 1, 0x40);
    check("10 03 11", 2, 2, 0x41);
    check("10 04 11", 2, 2, 0x41);
    check("10 05 11", 4, 4, 0x43);
    check("10 06 11", 8, 8, 0xC0);
    check("10 07 11", 4, 4, 0x43);
    check("10 08 11", 8, 8, 0xC0);
}

#[test]
fn a_scalar_behind_a_byte_leaves_a_hole() {
    check("10 01 02 11", 2, 1, 0x41);
    check("10 01 03 11", 4, 2, 0x43);
    check("10 01 04 11", 4, 2, 0x43);
    check("10 01 05 11", 8, 4, 0x47);
    check("10 01 06 11", 16, 8, 0xC1);
    check("10 01 07 11", 8, 4, 0x47);
    check("10 01 08 11", 16, 8, 0xC1);
    // From everywhere in a doubleword to its end.
    for size in 1..=8 {
        let members = [&bytes(size)[..], &[0x08]].concat();
        assert_eq!(describe(&around(&members)), structure(16, 8, 0xC1));
    }
}

#[test]
fn the_size_is_rounded_up_to_the_strictest_member() {
    check("10 03 01 11", 4, 2, 0x43);
    check("10 05 01 11", 8, 4, 0x47);
    check("10 05 03 01 11", 8, 4, 0x47);
    check("10 08 01 11", 16, 8, 0xC1);
    check("10 01 05 01 11", 12, 4, 0x4B);
    check("10 01 06 01 11", 24, 8, 0xC2);
    check("10 01 03 05 06 11", 16, 8, 0xC1);
    // Never up to a word where no member asks for one.
    check("10 01 01 01 11", 3, 1, 0x42);
    check("10 03 03 03 11", 6, 2, 0x45);
}

#[test]
fn a_repeated_member_stands_as_often_as_the_count_says() {
    check("10 12 01 05 11", 4, 4, 0x43);
    check("10 12 02 05 11", 8, 4, 0x47);
    check("10 12 FF 01 05 11", 260, 4, 0xB0);
    check("10 01 12 03 03 11", 8, 2, 0x47);
    check("10 12 03 01 05 11", 8, 4, 0x47);
    check("10 12 40 06 11", 512, 8, 0xFF);
    check("10 12 02 01 12 03 03 01 11", 10, 2, 0x49);
}

#[test]
fn a_repeat_of_zero() {
    check_refused("10 12 00 05 11", Cause::RepeatOfZero, 2);
    check_refused("10 05 12 00", Cause::RepeatOfZero, 3);
    check_refused("10 12 00 10 11", Cause::RepeatOfZero, 2);
}

#[test]
fn a_count_that_equals_a_byte_of_structures_is_a_count() {
    check("10 12 10 05 11", 64, 4, 0x7F);
    check("10 12 11 05 11", 68, 4, 0x80);
    check("10 12 12 05 11", 72, 4, 0x81);
    check("10 12 10 10 01 11 11", 16, 1, 0x4F);
    check("10 12 11 10 01 11 11", 17, 1, 0x50);
    check("10 12 12 10 01 11 11", 18, 1, 0x51);
    // A count that equals a scalar, or no other byte at all.
    check("10 12 08 01 11", 8, 1, 0x47);
    check("10 12 09 01 11", 9, 1, 0x48);
    check("10 12 13 01 11", 19, 1, 0x52);
}

#[test]
fn a_nested_structure_has_its_own_alignment_and_size() {
    check("10 10 01 11 11", 1, 1, 0x40);
    check("10 01 10 03 11 11", 4, 2, 0x43);
    check("10 01 10 05 11 01 11", 12, 4, 0x4B);
    check("10 01 10 06 11 11", 16, 8, 0xC1);
    // Its size is rounded before the next member is placed.
    check("10 10 05 01 11 01 11", 12, 4, 0x4B);
    check("10 10 05 01 11 03 11", 12, 4, 0x4B);
    check("10 10 08 01 11 01 11", 24, 8, 0xC2);
}

#[test]
fn a_repeated_structure_is_rounded_before_it_is_multiplied() {
    check("10 12 02 10 05 01 11 11", 16, 4, 0x4F);
    check("10 12 03 10 03 01 11 01 11", 14, 2, 0x4D);
    check("10 12 04 10 06 01 11 11", 64, 8, 0xC7);
    // Twice three times, one rounding each.
    check("10 12 02 10 12 03 10 03 01 11 01 11 11", 28, 2, 0x5B);
}

#[test]
fn depth_six_and_seven() {
    for scalar in ["01", "03", "05", "08"] {
        let alone = describe(&hex(&format!("10 {scalar} 11")));
        for depth in 1..=6 {
            let description = format!("{}{scalar}{}", "10".repeat(depth), "11".repeat(depth));
            assert_eq!(describe(&hex(&description)), alone, "{description}");
        }
    }
    check_refused("10 10 10 10 10 10 10", Cause::TooDeep, 6);
    check_refused("10 10 10 10 10 10 10 01 11", Cause::TooDeep, 6);
    check_refused("10 10 10 10 10 10 01 10", Cause::TooDeep, 7);
    check_refused("10 10 10 10 10 10 12 05 10", Cause::TooDeep, 8);
    // Depth counts what is open, not what has been.
    check(
        "10 10 10 10 10 10 01 11 11 11 10 10 10 01 11 11 11 11 11 11",
        2,
        1,
        0x41,
    );
}

#[test]
fn unknown_bytes() {
    let known = [
        0x01, 0x02, 0x03, 0x04, 0x05, 0x06, 0x07, 0x08, 0x10, 0x11, 0x12,
    ];
    for byte in (0..=0xFF).filter(|byte| !known.contains(byte)) {
        for before in [
            "",
            "10",
            "10 01",
            "10 12 02",
            "10 12 12",
            "10 10",
            "10 10 01 11",
        ] {
            let description = format!("{before} {byte:02X} 01 11");
            let place = hex(before).len();
            check_refused(&description, Cause::UnknownByte, place);
        }
    }
}

#[test]
fn the_first_byte_opens_the_structure() {
    for first in ["01", "02", "03", "04", "05", "06", "07", "08", "11", "12"] {
        check_refused(first, Cause::MisplacedByte, 0);
        check_refused(&format!("{first} 10 01 11"), Cause::MisplacedByte, 0);
    }
    check_refused("12 01 10 01 11", Cause::MisplacedByte, 0);
    check_refused("", Cause::BytesMissing, 0);
}

#[test]
fn a_count_stands_before_a_member() {
    check_refused("10 12 02 11", Cause::MisplacedByte, 3);
    check_refused("10 01 12 02 11", Cause::MisplacedByte, 4);
    check_refused("10 12 02 12", Cause::MisplacedByte, 3);
    check_refused("10 12 02 12 02 01 11", Cause::MisplacedByte, 3);
    check_refused("10 12 12 12 01 11", Cause::MisplacedByte, 3);
    // A repeat inside of a repeated structure is another member's.
    check("10 12 02 10 12 02 01 11 11", 4, 1, 0x43);
}

#[test]
fn a_structure_that_is_closed_empty() {
    check_refused("10 11", Cause::EmptyStructure, 1);
    check_refused("10 11 00", Cause::EmptyStructure, 1);
    check_refused("10 10 11 11", Cause::EmptyStructure, 2);
    check_refused("10 01 10 11 11", Cause::EmptyStructure, 3);
    check_refused("10 12 05 10 11 11", Cause::EmptyStructure, 4);
    check_refused("10 10 10 10 10 10 11", Cause::EmptyStructure, 6);
    // Also where 512 bytes lie before it: it doesn't end above.
    let full = [&[0x10], &bytes(512)[..], &[0x10, 0x11]].concat();
    assert_eq!(describe(&full), refused(19, full.len() - 1));
}

#[test]
fn a_member_that_ends_above_512() {
    check_refused("10 12 FF 05 11", Cause::BeyondLimit, 3);
    check_refused("10 12 81 05 11", Cause::BeyondLimit, 3);
    check_refused("10 12 41 06 11", Cause::BeyondLimit, 3);
    check_refused("10 12 FF 03 01 01 01", Cause::BeyondLimit, 6);
    for (size, member, fits) in [
        (511, 0x01, true),
        (512, 0x01, false),
        (510, 0x03, true),
        (511, 0x03, false),
        (508, 0x05, true),
        (509, 0x05, false),
        (504, 0x08, true),
        (505, 0x08, false),
    ] {
        let description = [&[0x10], &bytes(size)[..], &[member]].concat();
        let last = description.len() - 1;
        let answer = if fits {
            refused(16, last + 1)
        } else {
            refused(18, last)
        };
        assert_eq!(describe(&description), answer, "{size} and {member:02X}");
    }
}

#[test]
fn a_repeated_structure_ends_at_its_last_byte() {
    check_refused("10 12 FF 10 05 05 11 11", Cause::BeyondLimit, 6);
    // Not before that byte, though four bytes are too many already.
    check_refused("10 12 FF 10 05 09 11 11", Cause::UnknownByte, 5);
    check_refused("10 12 FF 10 05 11", Cause::BeyondLimit, 5);
    check_refused("10 12 FF 10 05", Cause::BytesMissing, 5);
    check_refused("10 12 FF 10 03 11 11", Cause::NoKind, 0);
    // 65 times 5 bytes would fit, but each of them is rounded up to 8.
    check_refused("10 12 41 10 05 01 11 11", Cause::BeyondLimit, 6);
    check_refused("10 12 40 10 05 01 11 11", Cause::NoKind, 0);
}

#[test]
fn the_limit_is_of_each_structure() {
    // 510 bytes are fine in a structure, whatever lies before it.
    let inner = around(&bytes(510));
    let two = [&[0x10], &bytes(2)[..], &inner, &[0x11]].concat();
    assert_eq!(describe(&two), refused(19, 0));
    let three = [&[0x10], &bytes(3)[..], &inner, &[0x11]].concat();
    assert_eq!(describe(&three), refused(18, three.len() - 2));
    // The innermost is judged first.
    let members = [&[0x10][..], &[0x10], &bytes(512), &[0x01]].concat();
    assert_eq!(describe(&members), refused(18, members.len() - 1));
}

#[test]
fn the_first_refused_byte_is_answered() {
    check_refused("10 11 09", Cause::EmptyStructure, 1);
    check_refused("10 12 FF 06 09", Cause::BeyondLimit, 3);
    check_refused("10 10 10 10 10 10 10 09", Cause::TooDeep, 6);
    check_refused("10 09 10 11", Cause::UnknownByte, 1);
    check_refused("10 12 00 09", Cause::RepeatOfZero, 2);
    check_refused("10 12 FF 10 10 10 10 10 10", Cause::TooDeep, 8);
}

#[test]
fn sizes_without_a_kind() {
    for size in [
        65, 66, 67, 69, 70, 71, 73, 319, 321, 322, 323, 324, 511, 512,
    ] {
        let description = around(&bytes(size));
        assert_eq!(describe(&description), refused(19, 0), "{size}");
        assert_eq!(cause_of_refusal(&description), Some(Cause::NoKind));
    }
    // With words as members too.
    check("10 12 50 05 11", 320, 4, 0xBF);
    check_refused("10 12 51 05 11", Cause::NoKind, 0);
    check_refused("10 12 80 05 11", Cause::NoKind, 0);
    // What is aligned to 2 needs no word, but a size that has a kind.
    check("10 12 20 03 11", 64, 2, 0x7F);
    check_refused("10 12 21 03 11", Cause::NoKind, 0);
    check("10 12 22 03 11", 68, 2, 0x80);
}

#[test]
fn sizes_at_the_ends_of_the_kinds() {
    for (size, kind) in [(1, 0x40), (64, 0x7F), (68, 0x80), (72, 0x81), (320, 0xBF)] {
        let answer = describe(&around(&bytes(size)));
        assert_eq!(answer, structure(size as u32, 1, kind));
    }
    check("10 12 01 06 11", 8, 8, 0xC0);
    check("10 12 08 06 11", 64, 8, 0xC7);
    check("10 12 09 06 11", 72, 8, 0xC8);
    check("10 12 28 06 11", 320, 8, 0xE7);
    check("10 12 29 06 11", 328, 8, 0xE8);
    check("10 12 3F 06 05 11", 512, 8, 0xFF);
    check("10 12 40 08 11", 512, 8, 0xFF);
}

/// The table of kinds, read the other way round.
#[test]
fn every_size_at_every_alignment() {
    for (scalar, alignment) in [(0x01, 1), (0x03, 2), (0x05, 4), (0x06, 8)] {
        for size in (alignment..=512).step_by(alignment) {
            let members = [&[scalar][..], &bytes(size - alignment)].concat();
            let kind = match (alignment, size) {
                (8, _) => 0xBF + size / 8,
                (_, 1..=64) => 0x3F + size,
                (_, 68..=320) if size % 4 == 0 => 0x7F + (size - 64) / 4,
                _ => 0,
            };
            let expected = match kind {
                0 => refused(19, 0),
                _ => structure(size as u32, alignment as u32, kind as u32),
            };
            assert_eq!(describe(&around(&members)), expected, "{size}, {alignment}");
        }
    }
}

/// Descriptions of every form; the last two have no kind.
const COMPLETE: [&str; 9] = [
    "10 01 11",
    "10 12 11 05 11",
    "10 12 12 10 01 11 11",
    "10 12 02 10 05 01 11 11",
    "10 01 10 03 10 05 12 03 10 08 11 11 02 11 04 11",
    "10 10 10 10 10 10 07 11 11 11 11 11 11",
    "10 12 FF 01 05 10 12 10 06 01 11 11",
    "10 12 41 01 11",
    "10 12 FF 10 03 11 11",
];

#[test]
fn cut_off_at_every_byte() {
    for description in COMPLETE.map(hex) {
        for length in 0..description.len() {
            let cut = &description[..length];
            assert_eq!(describe(cut), refused(16, length), "{cut:02X?}");
            assert_eq!(cause_of_refusal(cut), Some(Cause::BytesMissing));
        }
    }
}

#[test]
fn bytes_left_over() {
    for description in COMPLETE.map(hex) {
        for byte in 0..=0xFF {
            let place = description.len();
            for rest in [&[byte][..], &[byte, 0x11]] {
                let longer = [&description, rest].concat();
                assert_eq!(describe(&longer), refused(16, place), "{longer:02X?}");
                assert_eq!(cause_of_refusal(&longer), Some(Cause::BytesLeftOver));
            }
        }
    }
    check_refused("10 12 41 01 11 00", Cause::BytesLeftOver, 5);
    check_refused("10 01 11 10 01 11", Cause::BytesLeftOver, 3);
}

/// A byte that stands once, inside of so many structures that stand once: the
/// most bytes of a description for one byte of a structure.
fn wrapped_byte(structures: usize) -> Vec<u8> {
    let open = [0x12, 0x01, 0x10].repeat(structures);
    let close = [0x11].repeat(structures);
    [&open[..], &[0x12, 0x01, 0x01], &close].concat()
}

/// Structures open to depth 6, each with 512 bytes that are wrapped as deep as
/// they can be. Nothing more fits into the innermost one.
fn fullest() -> Vec<u8> {
    let mut description = vec![0x10];
    for depth in 1..=6 {
        description.extend(wrapped_byte(6 - depth).repeat(512));
        if depth < 6 {
            description.extend([0x12, 0x01, 0x10]);
        }
    }
    description
}

#[test]
fn the_largest_place() {
    let mut description = fullest();
    assert_eq!(description.len(), 39_952);
    assert_eq!(describe(&description), refused(16, 39_952));
    description.extend([0x12, 0x01]);
    assert_eq!(describe(&description), refused(16, 39_954));
    for byte in 0..=0xFF {
        description.push(byte);
        let number = match byte {
            0x01..=0x08 => 18,
            0x10 => 17,
            _ => 16,
        };
        assert_eq!(describe(&description), refused(number, 39_954));
        description.pop();
    }
    // What follows doesn't matter any more.
    description.resize(1 << 20, 0x01);
    assert_eq!(describe(&description), refused(18, 39_954));
}

#[test]
fn a_long_description_that_is_accepted() {
    let double = [
        &[0x12, 0x01, 0x10].repeat(5)[..],
        &[0x12, 0x01, 0x08, 0x11, 0x11, 0x11, 0x11, 0x11],
    ];
    let members = [wrapped_byte(5).repeat(504), double.concat()].concat();
    let description = around(&members);
    assert_eq!(description.len(), 505 * 23 + 2);
    assert_eq!(describe(&description), structure(512, 8, 0xFF));
}
