//! What a routine with an ellipsis takes behind the marker.

mod common;

use model::{read, walk, Answer, Device};

use common::{hex, image_of, image_with, on_both_devices, refused, success, At};
use At::{Floating as F, General as R, Stack};

/// Words for whatever carries nothing: holes, homes and unused registers.
const ELSEWHERE: [u32; 3] = [0, 0xEEEE_EEEE, 0x8000_0001];

/// The walk into a buffer of `room` bytes, which must be the same on both
/// devices: the answer, and the bodies that were written.
fn walked(signature: &[u8], image: &[u8], room: usize) -> (Answer, Vec<u8>) {
    on_both_devices(|device| {
        let mut buffer = vec![0xA5; room];
        let answer = walk(device, signature, image, &mut buffer);
        let (bodies, beyond) = buffer.split_at(answer.length as usize);
        assert!(beyond.iter().all(|&byte| byte == 0xA5));
        (answer, bodies.to_vec())
    })
}

/// The walk must give these bodies, whatever lies beside the given words.
fn check(signature: &str, area: usize, words: &[(At, u32)], bodies: &str) {
    let expected = hex(bodies);
    for elsewhere in ELSEWHERE {
        let image = image_with(elsewhere, area, words);
        for room in [expected.len(), 1100] {
            let (answer, bodies) = walked(&hex(signature), &image, room);
            assert_eq!(answer, success(expected.len()), "{signature}");
            assert_eq!(bodies, expected, "{signature}, elsewhere {elsewhere:08X}");
        }
    }
}

/// How a walk is refused. A refused walk writes nothing.
fn refusal(signature: &[u8], image: &[u8], room: usize) -> Answer {
    let (answer, bodies) = walked(signature, image, room);
    assert_eq!(bodies, []);
    answer
}

#[test]
fn a_named_single_counts_by_its_offset() {
    // The walk starts at 4, and the double is aligned to 8.
    check(
        "07 0A 08",
        16,
        &[
            (F(12), 0x1112_1314),
            (R(6), 0x0102_0304),
            (R(7), 0x0506_0708),
        ],
        "0102030405060708",
    );
    // A word is not: the walk goes on at 4.
    check("07 0A 05", 16, &[(R(5), 0x0102_0304)], "01020304");
}

#[test]
fn two_named_floats_count_by_their_offsets() {
    let double = [(R(6), 0x0102_0304), (R(7), 0x0506_0708)];
    check("07 07 0A 08", 16, &double, "0102030405060708");
    // The double is aligned to 8 and ends at 16.
    check("07 08 0A 05", 24, &[(Stack(16), 9)], "00000009");
    check("08 07 0A 07", 16, &[(R(7), 0x1112_1314)], "11121314");
    check("08 08 0A 07", 24, &[(Stack(16), 0x1112_1314)], "11121314");
}

#[test]
fn a_double_a_word_and_a_double_behind_the_marker() {
    // The word ends at 12, so the double lies at 16, on the stack.
    check(
        "08 05 0A 08",
        24,
        &[(Stack(16), 0x0102_0304), (Stack(20), 0x0506_0708)],
        "0102030405060708",
    );
    check(
        "08 0A 05 08",
        24,
        &[
            (R(6), 7),
            (Stack(16), 0x0102_0304),
            (Stack(20), 0x0506_0708),
        ],
        "00000007 0102030405060708",
    );
}

#[test]
fn a_named_return_pointer_counts() {
    let double = [(R(6), 0x0102_0304), (R(7), 0x0506_0708)];
    check("0B 05 0A 08", 16, &double, "0102030405060708");
    check("0B 07 0A 06", 16, &double, "0102030405060708");
}

#[test]
fn what_is_aligned_to_8_leaves_holes() {
    let words = [
        (R(5), 1),
        (R(6), 0x0203_0405),
        (R(7), 0x0607_0809),
        (Stack(16), 0x0A),
        (Stack(24), 0x0B0C_0D0E),
        (Stack(28), 0x0F10_1112),
    ];
    let bodies = "00000001 0203040506070809 0000000A 0B0C0D0E0F101112";
    check("05 0A 05 06 05 C0", 32, &words, bodies);
    // The area's size is rounded up to 8.
    check("05 0A 08 05", 24, &words[1..4], "0203040506070809 0000000A");
}

#[test]
fn a_structure_is_split_at_offset_16() {
    check(
        "05 0A 53",
        24,
        &[
            (R(5), 0x0102_0304),
            (R(6), 0x0506_0708),
            (R(7), 0x1112_1314),
            (Stack(16), 0x1516_1718),
            (Stack(20), 0x2122_2324),
        ],
        "0102030405060708 1112131415161718 21222324",
    );
    // Six bytes at 12: four in `$7`, two on the stack.
    check(
        "05 05 05 0A 45",
        24,
        &[(R(7), 0x0102_0304), (Stack(16), 0x0506_EEEE)],
        "010203040506",
    );
    // From 16 on nothing is split.
    check(
        "05 05 05 05 0A 45",
        24,
        &[(Stack(16), 0x0102_0304), (Stack(20), 0x0506_EEEE)],
        "010203040506",
    );
}

#[test]
fn a_structure_is_taken_without_its_fill() {
    // One, two, three and five bytes, which lie at 4, 8, 12 and 16.
    check(
        "05 0A 40 41 42 44",
        24,
        &[
            (R(5), 0x01EE_EEEE),
            (R(6), 0x0203_EEEE),
            (R(7), 0x0405_06EE),
            (Stack(16), 0x0708_090A),
            (Stack(20), 0x0BEE_EEEE),
        ],
        "01 0203 040506 0708090A0B",
    );
    // The structure before the marker ends at 8.
    check("44 0A 05", 16, &[(R(6), 9)], "00000009");
}

#[test]
fn bytes_and_halfwords_are_the_last_of_their_words() {
    check(
        "05 0A 01 02 03 04",
        24,
        &[
            (R(5), 0xFFFF_FF80),
            (R(6), 0x0000_0081),
            (R(7), 0xFFFF_8001),
            (Stack(16), 0x0000_FFFE),
        ],
        "80 81 8001 FFFE",
    );
    // Each is a whole word to step over, also before the marker.
    check(
        "01 04 0A 02 03",
        16,
        &[(R(4), 0x7F), (R(5), 0x8000), (R(6), 0xFF), (R(7), 0x7FFF)],
        "FF 7FFF",
    );
}

#[test]
fn thirty_two_arguments_and_a_marker() {
    let words: Vec<(At, u32)> = (0..32)
        .map(|index: usize| match index {
            0..=3 => (R(4 + index), index as u32),
            _ => (Stack(4 * index), index as u32),
        })
        .collect();
    for named in [1, 3, 4, 5, 31, 32] {
        let signature = format!("{}0A{}", "05".repeat(named), "05".repeat(32 - named));
        let bodies: String = (named..32).map(|index| format!("{index:08X}")).collect();
        check(&signature, 128, &words, &bodies);
    }
}

#[test]
fn a_marker_that_comes_last_gives_nothing() {
    for (signature, area) in [("05 0A", 16), ("07 08 0A", 16), ("0B 53 0A", 24)] {
        check(signature, area, &[], "");
    }
    check("FF FF 0A", 1024, &[], "");
}

/// The bytes 0, 1, 2 and so on at every offset of the area, spilled.
fn image_of_numbers(area: usize) -> Vec<u8> {
    let numbers: Vec<u8> = (0..area).map(|offset| offset as u8).collect();
    let floating_and_homes = [0xEE; 32];
    [&numbers[..16], &floating_and_homes, &numbers[16..]].concat()
}

#[test]
fn the_longest_bodies() {
    // A word, then structures of 320, 320, 320 and 60 bytes up to 1,024.
    let image = image_of_numbers(1024);
    let expected: Vec<u8> = (4..1024).map(|offset| offset as u8).collect();
    let signature = hex("05 0A BF BF BF 7B");
    assert_eq!(walked(&signature, &image, 1020), (success(1020), expected));
    assert_eq!(refusal(&signature, &image, 1019), refused(7, 0, 0));
    // Behind 512 bytes there is room for 512, and for not one word more.
    let expected: Vec<u8> = (512..1024).map(|offset| offset as u8).collect();
    let (answer, bodies) = walked(&hex("FF 0A FF"), &image, 512);
    assert_eq!((answer, bodies), (success(512), expected));
    let signature = hex("FF 0A FF 05");
    assert_eq!(refusal(&signature, &image, 1100), refused(5, 3, 3));
}

#[test]
fn refused_records() {
    for (signature, answer) in [
        ("05 0A 09", refused(1, 2, 0)),
        ("09 0A 05", refused(1, 0, 0)),
        ("0A", refused(2, 0, 0)),
        ("0B 0A 05", refused(2, 1, 0)),
        ("05 0A 0A", refused(2, 2, 0)),
        ("05 0A 05 0B", refused(2, 3, 3)),
        ("FF FF 0A 05", refused(5, 3, 3)),
        ("0B FF 0A FF", refused(5, 3, 3)),
    ] {
        // The image and the buffer are of no account yet.
        assert_eq!(refusal(&hex(signature), &[], 0), answer, "{signature}");
        assert_eq!(refusal(&hex(signature), &image_of(16, &[]), 1100), answer);
    }
}

#[test]
fn a_thirty_third_argument() {
    let mut signature = [&[0x05, 0x0A][..], &[0x05; 31]].concat();
    let image = image_of(128, &[]);
    assert_eq!(walked(&signature, &image, 124).0, success(124));
    signature.push(0x05);
    assert_eq!(refusal(&signature, &image, 1100), refused(3, 33, 33));
    // Also where the marker is the thirty-third record, or comes too late.
    let signature = [&[0x05; 32][..], &[0x0A, 0x05]].concat();
    assert_eq!(refusal(&signature, &image, 1100), refused(3, 33, 33));
    let signature = [&[0x05; 33][..], &[0x0A]].concat();
    assert_eq!(refusal(&signature, &image, 1100), refused(3, 32, 33));
}

#[test]
fn a_signature_without_a_marker() {
    let image = image_of(16, &[]);
    assert_eq!(refusal(&[], &image, 1100), refused(15, 0, 0));
    assert_eq!(refusal(&[0x05], &image, 1100), refused(15, 0, 0));
    assert_eq!(refusal(&hex("0B 05"), &image, 1100), refused(15, 0, 0));
    assert_eq!(walked(&hex("05 0A"), &image, 0).0, success(0));
    let image = image_of(128, &[]);
    assert_eq!(refusal(&[0x05; 32], &image, 1100), refused(15, 0, 0));
}

#[test]
fn a_missing_marker_is_refused_behind_every_record() {
    for (signature, answer) in [
        ("05 09", refused(1, 1, 0)),
        ("05 0B", refused(2, 1, 2)),
        ("FF FF 05", refused(5, 2, 3)),
        ("FF FF", refused(15, 0, 0)),
    ] {
        assert_eq!(refusal(&hex(signature), &[], 0), answer, "{signature}");
    }
    assert_eq!(refusal(&[0x05; 33], &[], 0), refused(3, 32, 33));
}

#[test]
fn a_missing_marker_is_refused_before_the_image() {
    // There is no room, and 01010101 is no promotion of a signed byte.
    for length in [0, 47, 48, 49, 56] {
        assert_eq!(refusal(&[0x01], &vec![1; length], 0), refused(15, 0, 0));
        // With a marker the image comes next.
        let answer = refusal(&hex("01 0A"), &vec![1; length], 0);
        let number = if length == 48 { 8 } else { 6 };
        assert_eq!(answer.refusal, number, "image of {length} bytes");
    }
}

#[test]
fn images_of_another_length() {
    let image = [0; 64];
    let signature = hex("05 05 05 0A 08");
    assert_eq!(walked(&signature, &image[..56], 8).0, success(8));
    for length in (0..=64).filter(|&length| length != 56) {
        let answer = refusal(&signature, &image[..length], 8);
        assert_eq!(answer, refused(6, 0, 0), "image of {length} bytes");
    }
}

#[test]
fn the_room_is_that_of_the_bodies_behind_the_marker() {
    // The reader's list has 24 bytes, the bodies behind the marker have 11.
    let signature = hex("08 0A 02 45 05");
    let mut image = image_of_numbers(24);
    image[8..12].copy_from_slice(&[0, 0, 0, 0xFF]);
    for room in 0..30 {
        let (answer, bodies) = walked(&signature, &image, room);
        if room < 11 {
            assert_eq!((answer, bodies), (refused(7, 0, 0), vec![]));
        } else {
            assert_eq!(answer, success(11));
            assert_eq!(bodies, hex("FF 0C0D0E0F1011 14151617"));
        }
    }
}

#[test]
fn refusals_6_then_7_then_8() {
    let signature = hex("05 0A 01");
    let image = image_of(16, &[(R(5), 0x80)]);
    assert_eq!(refusal(&signature, &image, 1), refused(8, 2, 2));
    assert_eq!(refusal(&signature, &image, 0), refused(7, 0, 0));
    assert_eq!(refusal(&signature, &image[..47], 0), refused(6, 0, 0));
}

#[test]
fn improper_promotions_before_the_marker_are_refused_too() {
    let image = image_of(16, &[(R(4), 0x100)]);
    assert_eq!(refusal(&hex("01 0A 05"), &image, 4), refused(8, 0, 1));
    // Though a marker that comes last has nothing behind it.
    assert_eq!(refusal(&hex("01 0A"), &image, 0), refused(8, 0, 1));
    // The first of two is named.
    let two = image_of(16, &[(R(4), 0x100), (R(6), 0x1_0000)]);
    assert_eq!(refusal(&hex("02 0A 05 04"), &two, 6), refused(8, 0, 1));
    let second = image_of(16, &[(R(4), 0xFF), (R(6), 0x1_0000)]);
    assert_eq!(refusal(&hex("02 0A 05 04"), &second, 6), refused(8, 3, 3));
}

#[test]
fn only_proper_promotions_are_taken() {
    for (kind, proper, improper) in [
        ("01", 0xFFFF_FF80, 0x0000_0080),
        ("01", 0x0000_007F, 0xFFFF_FF7F),
        ("02", 0x0000_00FF, 0x0000_0100),
        ("03", 0xFFFF_8000, 0x0000_8000),
        ("03", 0x0000_7FFF, 0x7FFF_7FFF),
        ("04", 0x0000_FFFF, 0x0001_0000),
    ] {
        let signature = hex(&format!("05 05 05 05 0A {kind}"));
        let image = |word| image_of(24, &[(Stack(16), word)]);
        assert_eq!(walked(&signature, &image(proper), 2).0.refusal, 0);
        let answer = refusal(&signature, &image(improper), 2);
        assert_eq!(answer, refused(8, 5, 5), "{kind} {improper:08X}");
    }
}

/// The bodies behind the marker in a list that has one.
fn bodies_behind_marker(signature: &[u8], list: &[u8]) -> Vec<u8> {
    let body = |kind| model::lengths(&[kind]).map_or(0, |lengths| lengths.list - 1);
    let mut behind = false;
    let mut bodies = Vec::new();
    let mut rest = list;
    for &kind in signature {
        let (record, next) = rest.split_at(1 + body(kind));
        if behind {
            bodies.extend(&record[1..]);
        }
        behind |= kind == 0x0A;
        rest = next;
    }
    bodies
}

#[test]
fn the_bodies_are_the_readers() {
    let kinds = hex("01 02 03 04 05 06 07 08 0B 40 42 45 4F 53 C0 C2");
    for &first in &kinds {
        for &second in &kinds {
            for &third in &kinds {
                check_against_reader(&[first, 0x0A, second, third]);
                check_against_reader(&[first, second, 0x0A, third]);
                check_against_reader(&[first, second, third, 0x0A]);
            }
        }
    }
}

/// Tries an image whose bytes differ, and one whose words differ and are proper
/// promotions of every kind.
fn check_against_reader(signature: &[u8]) {
    let Some(lengths) = model::lengths(signature) else {
        return;
    };
    let bytes: Vec<u8> = (0..lengths.image).map(|at| at as u8 ^ 0x5A).collect();
    let words = (0..lengths.image / 4).flat_map(|at| [0, 0, 0, at as u8]);
    for image in [bytes, words.collect()] {
        for device in [Device::Fpu, Device::NoFpu] {
            let mut list = vec![0; lengths.list];
            let reading = read(device, signature, &image, &mut list);
            let (answer, bodies) = walked(signature, &image, lengths.list);
            assert_eq!(answer.refusal, reading.refusal, "{signature:02X?}");
            assert_eq!(answer.place, reading.place);
            assert_eq!(answer.argument, reading.argument);
            if reading.refusal == 0 {
                let expected = bodies_behind_marker(signature, &list);
                assert_eq!(bodies, expected, "{signature:02X?}");
            }
        }
    }
}
