//! Which code is a prologue for a request, with words worked out by hand.

mod common;

use model::{check_prologue, Device, Request, Verdict};

use common::{hex, on_both_devices};
use Device::{Fpu, NoFpu};

/// The paper's frame: F = 32 and 27BDFFE0 AFB00010 AFBF0014.
const EXAMPLE: Request = Request {
    leaf: false,
    locals: 4,
    outgoing: 0,
    general: 1 << 16 | 1 << 31,
    pairs: 0,
};

/// B = 24, `$f22` and `$f23` from 24, `$16`, `$28` and `$31` from 32, padding to
/// 48, locals to 52: F = 56.
const MIXED: Request = Request {
    leaf: false,
    locals: 4,
    outgoing: 17,
    general: 1 << 16 | 1 << 28 | 1 << 31,
    pairs: 0b10,
};

const MIXED_PROLOGUE: &str = "27BDFFC8 E7B60018 E7B7001C AFB00020 AFBC0024 AFBF0028";

/// A leaf that saves `$16`, `$17` and `$18` from 0 on: F = 16.
const THREE: Request = Request {
    leaf: true,
    locals: 0,
    outgoing: 0,
    general: 7 << 16,
    pairs: 0,
};

/// A leaf without anything: F = 0.
const NOTHING: Request = Request {
    leaf: true,
    locals: 0,
    outgoing: 0,
    general: 0,
    pairs: 0,
};

const OTHER_WORDS: u32 = 255;

/// The verdict on code that isn't refused.
#[track_caller]
fn verdict(device: Device, request: Request, code: &str) -> u32 {
    let answer = check_prologue(device, request, &hex(code));
    assert_eq!((answer.refusal, answer.place), (0, 0), "{code}");
    answer.verdict
}

/// The verdict on code for a request without pairs, where the device is of no
/// account.
#[track_caller]
fn of_general(request: Request, code: &str) -> u32 {
    assert_eq!(request.pairs, 0);
    on_both_devices(|device| verdict(device, request, code))
}

#[track_caller]
fn check_each<const N: usize>(device: Device, request: Request, cases: [(&str, u32); N]) {
    for (code, expected) in cases {
        assert_eq!(verdict(device, request, code), expected, "{code}");
    }
}

#[test]
fn the_example_in_both_orders() {
    assert_eq!(of_general(EXAMPLE, "27BDFFE0 AFB00010 AFBF0014"), 0);
    assert_eq!(of_general(EXAMPLE, "27BDFFE0 AFBF0014 AFB00010"), 0);
}

#[test]
fn three_stores_in_every_order() {
    for stores in [
        "AFB00000 AFB10004 AFB20008",
        "AFB00000 AFB20008 AFB10004",
        "AFB10004 AFB00000 AFB20008",
        "AFB10004 AFB20008 AFB00000",
        "AFB20008 AFB00000 AFB10004",
        "AFB20008 AFB10004 AFB00000",
    ] {
        assert_eq!(of_general(THREE, &format!("27BDFFF0 {stores}")), 0);
        // The `addiu` is behind a store.
        assert_eq!(
            of_general(THREE, &format!("{stores} 27BDFFF0")),
            OTHER_WORDS
        );
    }
}

#[test]
fn floating_stores_stand_anywhere_among_the_others() {
    check_each(
        Fpu,
        MIXED,
        [
            (MIXED_PROLOGUE, 0),
            ("27BDFFC8 AFBF0028 AFBC0024 AFB00020 E7B7001C E7B60018", 0),
            ("27BDFFC8 AFB00020 E7B7001C AFBF0028 E7B60018 AFBC0024", 0),
        ],
    );
}

/// Also before the `addiu`, and up to 64 words in all.
#[test]
fn words_of_zeros_stand_anywhere() {
    for code in [
        "00000000 27BDFFE0 AFB00010 AFBF0014",
        "27BDFFE0 00000000 AFB00010 AFBF0014",
        "27BDFFE0 AFB00010 00000000 00000000 AFBF0014",
        "27BDFFE0 AFB00010 AFBF0014 00000000",
        "00000000 27BDFFE0 00000000 AFBF0014 00000000 AFB00010 00000000",
    ] {
        assert_eq!(of_general(EXAMPLE, code), 0, "{code}");
    }
    let zeros = "00000000".repeat(61);
    assert_eq!(
        of_general(EXAMPLE, &format!("{zeros} 27BDFFE0 AFB00010 AFBF0014")),
        0
    );
    assert_eq!(
        of_general(EXAMPLE, &format!("27BDFFE0 {zeros} AFB00010 AFBF0014")),
        0
    );
    assert_eq!(
        of_general(EXAMPLE, &format!("27BDFFE0 AFB00010 AFBF0014 {zeros}")),
        0
    );
}

/// No words are few enough only where there is no frame.
#[test]
fn a_frame_of_no_bytes() {
    for (code, expected) in [
        ("", 0),
        ("00000000", 0),
        ("00000000 00000000 00000000", 0),
        ("27BD0000", OTHER_WORDS),
        ("00000000 27BD0000 00000000", OTHER_WORDS),
        ("27BDFFF8", OTHER_WORDS),
        ("AFBF0000", OTHER_WORDS),
        ("00000001", OTHER_WORDS),
        ("03E00008 00000000", OTHER_WORDS),
    ] {
        assert_eq!(of_general(NOTHING, code), expected, "{code}");
    }
    assert_eq!(of_general(NOTHING, &"00000000".repeat(64)), 0);
}

/// A leaf with locals alone: F = 8, and nothing is stored.
#[test]
fn a_frame_without_stores() {
    let request = Request {
        locals: 1,
        ..NOTHING
    };
    for (code, expected) in [
        ("27BDFFF8", 0),
        ("00000000 27BDFFF8 00000000", 0),
        ("", OTHER_WORDS),
        ("00000000", OTHER_WORDS),
        ("27BDFFF8 27BDFFF8", OTHER_WORDS),
        ("27BDFFF0", OTHER_WORDS),
        ("27BDFFF8 AFB00000", OTHER_WORDS),
    ] {
        assert_eq!(of_general(request, code), expected, "{code}");
    }
}

#[test]
fn addiu_missing_doubled_or_behind_a_store() {
    for code in [
        "",
        "00000000",
        "AFB00010 AFBF0014",
        "27BDFFE0 27BDFFE0 AFB00010 AFBF0014",
        "27BDFFE0 AFB00010 AFBF0014 27BDFFE0",
        "27BDFFE0 27BDFFE0 27BDFFE0 AFB00010 AFBF0014",
        "AFB00010 27BDFFE0 AFBF0014",
        "AFB00010 AFBF0014 27BDFFE0",
        // Of another frame, once beside the right one.
        "27BDFFD8 AFB00010 AFBF0014",
        "27BDFFE0 27BDFFD8 AFB00010 AFBF0014",
        "27BD0020 AFB00010 AFBF0014",
        // To or from another register; addi in place of addiu.
        "27BCFFE0 AFB00010 AFBF0014",
        "279DFFE0 AFB00010 AFBF0014",
        "23BDFFE0 AFB00010 AFBF0014",
    ] {
        assert_eq!(of_general(EXAMPLE, code), OTHER_WORDS, "{code}");
    }
}

/// Each stands in place of the store of `$16`, and beside it.
#[test]
fn other_words() {
    for word in [
        "AFB00014", // At the place of $31.
        "AFB0000C", // At other places.
        "AFB00018", "AFB00011", "AFBF0010", // $31 at the place of $16.
        "AFB10010", // A register that isn't named.
        "AFA40010", "AFC00010", // Another base.
        "AF900010", "8FB00010", // lw.
        "A7B00010", // sh.
        "E7B00010", // swc1.
        "E7B40010", "F7B40010", // sdc1.
        "02002021", // addu $4,$16,$0
        "00000001", "FFFFFFFF",
    ] {
        let instead = format!("27BDFFE0 {word} AFBF0014");
        assert_eq!(of_general(EXAMPLE, &instead), OTHER_WORDS, "{word}");
        let beside = format!("27BDFFE0 AFB00010 AFBF0014 {word}");
        assert_eq!(of_general(EXAMPLE, &beside), OTHER_WORDS, "{word}");
        let first = format!("{word} 27BDFFE0 AFB00010 AFBF0014");
        assert_eq!(of_general(EXAMPLE, &first), OTHER_WORDS, "{word}");
    }
    // Both at the places of each other.
    assert_eq!(
        of_general(EXAMPLE, "27BDFFE0 AFB00014 AFBF0010"),
        OTHER_WORDS
    );
}

#[test]
fn a_floating_register_at_the_place_of_another() {
    check_each(
        Fpu,
        MIXED,
        [
            // The halves of a pair exchanged.
            (
                "27BDFFC8 E7B6001C E7B70018 AFB00020 AFBC0024 AFBF0028",
                OTHER_WORDS,
            ),
            // The pair that isn't named.
            (
                "27BDFFC8 E7B40018 E7B5001C AFB00020 AFBC0024 AFBF0028",
                OTHER_WORDS,
            ),
            // `sdc1 $f22,24($sp)` for both.
            ("27BDFFC8 F7B60018 AFB00020 AFBC0024 AFBF0028", OTHER_WORDS),
            // sw for swc1, and the other way round.
            (
                "27BDFFC8 AFB60018 E7B7001C AFB00020 AFBC0024 AFBF0028",
                OTHER_WORDS,
            ),
            (
                "27BDFFC8 E7B60018 E7B7001C E7B00020 AFBC0024 AFBF0028",
                OTHER_WORDS,
            ),
        ],
    );
}

#[test]
fn a_store_that_is_missing() {
    check_each(
        Fpu,
        MIXED,
        [
            ("27BDFFC8 E7B7001C AFB00020 AFBC0024 AFBF0028", 54),
            ("27BDFFC8 E7B60018 AFB00020 AFBC0024 AFBF0028", 55),
            ("27BDFFC8 E7B60018 E7B7001C AFBC0024 AFBF0028", 16),
            ("27BDFFC8 E7B60018 E7B7001C AFB00020 AFBF0028", 28),
            ("27BDFFC8 E7B60018 E7B7001C AFB00020 AFBC0024", 31),
            // All of them.
            ("27BDFFC8", 16),
        ],
    );
}

/// Twice or more: the count doesn't matter.
#[test]
fn a_store_that_is_doubled() {
    for (store, name) in [
        ("E7B60018", 54),
        ("E7B7001C", 55),
        ("AFB00020", 16),
        ("AFBC0024", 28),
        ("AFBF0028", 31),
    ] {
        for times in [1, 2, 3, 58] {
            let code = format!("{MIXED_PROLOGUE} {}", store.repeat(times));
            assert_eq!(verdict(Fpu, MIXED, &code), name, "{code}");
        }
        let not_side_by_side = format!("{MIXED_PROLOGUE} 00000000 {store}");
        assert_eq!(verdict(Fpu, MIXED, &not_side_by_side), name);
    }
}

/// General registers by number, then floating ones, wherever they stand in the
/// code and whether missing or doubled.
#[test]
fn the_first_of_several_registers_is_named() {
    check_each(
        Fpu,
        MIXED,
        [
            // Doubled: $f22, then $31; named is $31.
            (
                "27BDFFC8 E7B60018 E7B60018 E7B7001C AFB00020 AFBC0024 AFBF0028 AFBF0028",
                31,
            ),
            // $31 doubled before $28 is, by the words; named is $28.
            (
                "27BDFFC8 AFBF0028 AFBF0028 AFBC0024 AFBC0024 AFB00020 E7B60018 E7B7001C",
                28,
            ),
            // $16 missing and $f22 doubled; $f22 missing and $16 doubled.
            ("27BDFFC8 E7B60018 E7B60018 E7B7001C AFBC0024 AFBF0028", 16),
            ("27BDFFC8 E7B7001C AFBC0024 AFBF0028 AFB00020 AFB00020", 16),
            // $f23 doubled and $f22 missing.
            ("27BDFFC8 E7B7001C E7B7001C AFB00020 AFBC0024 AFBF0028", 54),
            // Only both floating ones, the odd one first by the words.
            (
                "27BDFFC8 E7B7001C E7B7001C E7B60018 E7B60018 AFB00020 AFBC0024 AFBF0028",
                54,
            ),
        ],
    );
}

/// Wherever the other word stands.
#[test]
fn other_words_in_preference() {
    check_each(
        Fpu,
        MIXED,
        [
            // $16 is missing, and a word of the body comes last.
            (
                "27BDFFC8 E7B60018 E7B7001C AFBC0024 AFBF0028 02002021",
                OTHER_WORDS,
            ),
            // $16 is doubled, and $17 is stored last.
            (
                "27BDFFC8 AFB00020 AFB00020 E7B60018 E7B7001C AFBC0024 AFBF0028 AFB1002C",
                OTHER_WORDS,
            ),
            // $31 is missing, and the `addiu` is behind a store.
            ("E7B60018 27BDFFC8 E7B7001C AFB00020 AFBC0024", OTHER_WORDS),
            // The `addiu` is doubled, and all stores are missing.
            ("27BDFFC8 27BDFFC8", OTHER_WORDS),
        ],
    );
}

/// Alone in a leaf each register lies at 0, and the second of a pair at 4.
#[test]
fn every_register_alone() {
    for register in (16..24).chain([28, 30, 31]) {
        let request = Request {
            general: 1 << register,
            ..NOTHING
        };
        let store = format!("{:08X}", 0xAFA0_0000_u32 + (register << 16));
        assert_eq!(of_general(request, &format!("27BDFFF8 {store}")), 0);
        assert_eq!(of_general(request, "27BDFFF8"), register);
        assert_eq!(
            of_general(request, &format!("27BDFFF8 {store} {store}")),
            register
        );
    }
    for pair in 0..6 {
        let request = Request {
            pairs: 1 << pair,
            ..NOTHING
        };
        let even = 20 + 2 * pair;
        let first = format!("{:08X}", 0xE7A0_0000_u32 + (even << 16));
        let second = format!("{:08X}", 0xE7A1_0004_u32 + (even << 16));
        let code = format!("27BDFFF8 {first} {second}");
        assert_eq!(verdict(Fpu, request, &code), 0);
        assert_eq!(verdict(Fpu, request, "27BDFFF8"), 32 + even);
        // The even register only, and the odd one only.
        let code = format!("27BDFFF8 {first}");
        assert_eq!(verdict(Fpu, request, &code), 32 + even + 1);
        let code = format!("27BDFFF8 {second}");
        assert_eq!(verdict(Fpu, request, &code), 32 + even);
    }
}

/// 24 words; F = 17,504, and -17,504 is BBA0 in sixteen bits.
#[test]
fn the_longest_prologue() {
    let largest = Request {
        leaf: false,
        locals: 16_384,
        outgoing: 1_024,
        general: 0xD0FF_0000,
        pairs: 63,
    };
    let addiu = "27BDBBA0";
    let floating = "E7B40400 E7B50404 E7B60408 E7B7040C E7B80410 E7B90414 \
        E7BA0418 E7BB041C E7BC0420 E7BD0424 E7BE0428 E7BF042C";
    let general = "AFB00430 AFB10434 AFB20438 AFB3043C AFB40440 AFB50444 AFB60448 AFB7044C \
        AFBC0450 AFBE0454 AFBF0458";
    let code = format!("{addiu} {floating} {general}");
    assert_eq!(hex(&code).len(), 96);
    assert_eq!(verdict(Fpu, largest, &code), 0);
    let code = format!("{addiu} {general} {floating}");
    assert_eq!(verdict(Fpu, largest, &code), 0);
    // Without one group or the other, and without the last of each.
    check_each(
        Fpu,
        largest,
        [
            (&format!("{addiu} {floating}"), 16),
            (&format!("{addiu} {general}"), 52),
        ],
    );
    let without_f31 = floating.strip_suffix("E7BF042C").expect("the last");
    let code = format!("{addiu} {general} {without_f31}");
    assert_eq!(verdict(Fpu, largest, &code), 63);
}

/// The answer to code that is refused, which has no verdict.
fn refused(number: u32) -> Verdict {
    Verdict {
        refusal: number,
        place: 0,
        verdict: 0,
    }
}

#[test]
fn lengths_that_are_refused() {
    for length in 0..=300 {
        let mut code = vec![0; length];
        let answer = on_both_devices(|device| check_prologue(device, NOTHING, &code));
        let expected = if length % 4 == 0 && length <= 256 {
            Verdict::default()
        } else {
            refused(21)
        };
        assert_eq!(answer, expected, "{length}");
        // Whatever the words are.
        code.fill(0xFF);
        let answer = on_both_devices(|device| check_prologue(device, EXAMPLE, &code));
        let expected = if length % 4 == 0 && length <= 256 {
            Verdict {
                verdict: OTHER_WORDS,
                ..Verdict::default()
            }
        } else {
            refused(21)
        };
        assert_eq!(answer, expected, "{length}");
    }
    // A prologue with its last byte cut off, and one with a byte too many.
    let code = hex("27BDFFE0 AFB00010 AFBF0014 00");
    for length in [11, 13] {
        assert_eq!(
            on_both_devices(|device| check_prologue(device, EXAMPLE, &code[..length])),
            refused(21)
        );
    }
}

/// 9, 14, 10, 11, 12 and then 21, each with all that come behind it.
#[test]
fn refusals_in_their_order() {
    let all = Request {
        leaf: false,
        locals: 16_385,
        outgoing: 1_025,
        general: 1 << 15,
        pairs: 1,
    };
    let pairs = Request { general: 0, ..all };
    let unsaved = Request { pairs: 0, ..pairs };
    let locals = Request {
        general: 1 << 31,
        ..unsaved
    };
    let outgoing = Request {
        locals: 16_384,
        ..locals
    };
    let length = Request {
        outgoing: 1_024,
        ..outgoing
    };
    for code in [&[0; 3][..], &[0; 257], &[0; 260]] {
        for (request, with_unit, without_unit) in [
            (all, 9, 9),
            (Request { pairs: 64, ..pairs }, 9, 9),
            (pairs, 10, 14),
            (unsaved, 10, 10),
            (locals, 11, 11),
            (outgoing, 12, 12),
            (length, 21, 21),
            (Request { pairs: 1, ..length }, 21, 14),
            (
                Request {
                    outgoing: 1,
                    ..NOTHING
                },
                12,
                12,
            ),
        ] {
            assert_eq!(check_prologue(Fpu, request, code), refused(with_unit));
            assert_eq!(check_prologue(NoFpu, request, code), refused(without_unit));
        }
    }
}

/// A refused request has no verdict, not even on words that are no prologue.
#[test]
fn a_refused_request_has_no_verdict() {
    let request = Request {
        pairs: 1,
        ..EXAMPLE
    };
    for code in ["", "27BDFFE0 AFB00010 AFBF0014", "FFFFFFFF"] {
        assert_eq!(check_prologue(NoFpu, request, &hex(code)), refused(14));
    }
}
