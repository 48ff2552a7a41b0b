//! Plans of signatures, and images that are filled under them.

mod common;

use model::{fill, make_plan, read, signature, write, Answer, Device, Placement, Plan};

use common::{hex, image_of, on_both_devices, refused, success, At};
use At::{Floating as F, General as R, Stack};
use Device::{Fpu, NoFpu};

const DEVICES: [Device; 2] = [Fpu, NoFpu];

/// Kind, offset and floating register of an argument.
type Entry = (u32, u32, u32);

/// The numbers of a plan, written down one by one: the entries, zeros up to the
/// 32nd, the count and the area's size.
fn plan_words(entries: &[Entry], area: u32) -> Vec<u32> {
    let mut words: Vec<u32> = entries
        .iter()
        .flat_map(|&(kind, offset, register)| [kind, offset, register])
        .collect();
    words.resize(96, 0);
    words.extend([entries.len() as u32, area]);
    words
}

/// Makes a plan where there are `room` words. All but the plan must be kept.
fn plan_in(device: Device, signature: &[u8], room: usize) -> (Answer, Vec<u32>) {
    let mut words = vec![0xA5A5_A5A5; room];
    let answer = make_plan(device, signature, &mut words);
    let (plan, beyond) = words.split_at(answer.length as usize);
    assert!(beyond.iter().all(|&word| word == 0xA5A5_A5A5));
    (answer, plan.to_vec())
}

fn plan_of(device: Device, signature: &[u8]) -> Vec<u32> {
    let (answer, plan) = plan_in(device, signature, 98);
    assert_eq!(answer, success(98), "signature {signature:02X?}");
    plan
}

fn plan_refusal(signature: &[u8], room: usize) -> Answer {
    let (answer, plan) = on_both_devices(|device| plan_in(device, signature, room));
    assert_eq!(plan, []);
    answer
}

/// Fills where there are `room` bytes. All but the image must be kept.
fn filled_in(device: Device, plan: &[u32], list: &[u8], room: usize) -> (Answer, Vec<u8>) {
    let mut buffer = vec![0xA5; room];
    let answer = fill(device, plan, list, &mut buffer);
    let (image, beyond) = buffer.split_at(answer.length as usize);
    assert!(beyond.iter().all(|&byte| byte == 0xA5));
    (answer, image.to_vec())
}

fn filled(device: Device, plan: &[u32], list: &[u8]) -> Vec<u8> {
    let (answer, image) = filled_in(device, plan, list, 1100);
    assert_eq!(answer, success(image.len()), "list {list:02X?}");
    image
}

/// How a fill is refused. A refused one writes nothing.
fn fill_refusal(device: Device, plan: &[u32], list: &[u8], room: usize) -> Answer {
    let (answer, image) = filled_in(device, plan, list, room);
    assert_eq!(image, []);
    answer
}

/// The signature gives these entries and this area, with a floating-point unit.
#[track_caller]
fn check(signature: &str, entries: &[Entry], area: u32) {
    let plan = plan_of(Fpu, &hex(signature));
    assert_eq!(plan, plan_words(entries, area), "{signature}");
}

/// Likewise without the unit.
#[track_caller]
fn check_without_unit(signature: &str, entries: &[Entry], area: u32) {
    let plan = plan_of(NoFpu, &hex(signature));
    assert_eq!(plan, plan_words(entries, area), "{signature}");
}

#[track_caller]
fn check_on_both(signature: &str, entries: &[Entry], area: u32) {
    check(signature, entries, area);
    check_without_unit(signature, entries, area);
}

/// Two structures of 512 bytes, each record 513 bytes long.
fn big_structures() -> Vec<u8> {
    let mut record = vec![0; 513];
    record[0] = 0xFF;
    record.repeat(2)
}

/// So many words, each record five bytes long.
fn words(count: usize) -> Vec<u8> {
    hex("05 00000000").repeat(count)
}

#[test]
fn the_numbers_of_a_plan() {
    let mut plan = Plan::default();
    assert_eq!(plan.words(), [0; 98]);
    for (number, entry) in (0..).zip(&mut plan.placements) {
        *entry = Placement {
            kind: 1000 + number,
            offset: 2000 + number,
            register: 3000 + number,
        };
    }
    plan.count = 4000;
    plan.area = 5000;
    let words = plan.words();
    assert_eq!(words[..6], [1000, 2000, 3000, 1001, 2001, 3001]);
    assert_eq!(words[93..], [1031, 2031, 3031, 4000, 5000]);
    for (number, entry) in (0..).zip(words[..96].chunks(3)) {
        assert_eq!(entry, [1000 + number, 2000 + number, 3000 + number]);
    }
}

#[test]
fn a_plan_of_the_struct() {
    let mut plan = Plan {
        count: 2,
        area: 16,
        ..Plan::default()
    };
    plan.placements[0] = Placement {
        kind: 0x08,
        offset: 0,
        register: 12,
    };
    plan.placements[1] = Placement {
        kind: 0x07,
        offset: 8,
        register: 14,
    };
    assert_eq!(plan_of(Fpu, &hex("08 07")), plan.words());
    let list = hex("08 0102030405060708 07 11121314");
    let words = [
        (F(12), 0x0506_0708),
        (F(13), 0x0102_0304),
        (F(14), 0x1112_1314),
    ];
    assert_eq!(filled(Fpu, &plan.words(), &list), image_of(16, &words));
}

#[test]
fn the_plan_of_the_empty_signature() {
    for device in DEVICES {
        let plan = plan_of(device, &[]);
        assert_eq!(plan[..97], [0; 97]);
        assert_eq!(plan[97], 16);
        assert_eq!(filled(device, &plan, &[]), vec![0; 48]);
    }
}

#[test]
fn plans_without_floats() {
    check_on_both("05", &[(0x05, 0, 0)], 16);
    check_on_both("43", &[(0x43, 0, 0)], 16);
    check_on_both("05 45", &[(0x05, 0, 0), (0x45, 4, 0)], 16);
    // The first 12 of 20 bytes lie in registers; it is one argument all the same.
    check_on_both("05 53", &[(0x05, 0, 0), (0x53, 4, 0)], 24);
    let shorts = [
        (0x01, 0, 0),
        (0x02, 4, 0),
        (0x03, 8, 0),
        (0x04, 12, 0),
        (0x06, 16, 0),
    ];
    check_on_both("01 02 03 04 06", &shorts, 24);
    // One, two, three and five bytes, each filled up to whole words.
    let filled_up = [
        (0x40, 0, 0),
        (0x41, 4, 0),
        (0x42, 8, 0),
        (0x44, 12, 0),
        (0x05, 20, 0),
    ];
    check_on_both("40 41 42 44 05", &filled_up, 24);
    // 68 and 320 bytes.
    let large = [(0x80, 0, 0), (0xBF, 68, 0), (0x05, 388, 0)];
    check_on_both("80 BF 05", &large, 392);
}

#[test]
fn what_is_aligned_to_8_behind_a_word() {
    check_on_both("05 C0", &[(0x05, 0, 0), (0xC0, 8, 0)], 16);
    check_on_both("05 C1", &[(0x05, 0, 0), (0xC1, 8, 0)], 24);
    check_on_both("05 06", &[(0x05, 0, 0), (0x06, 8, 0)], 16);
    // Eight bytes that are aligned to words leave no hole.
    check_on_both("05 47", &[(0x05, 0, 0), (0x47, 4, 0)], 16);
    let entries = [(0x05, 0, 0), (0xC0, 8, 0), (0x05, 16, 0), (0xC0, 24, 0)];
    check_on_both("05 C0 05", &entries[..3], 24);
    check_on_both("05 C0 05 C0", &entries, 32);
    check_on_both("05 FF", &[(0x05, 0, 0), (0xFF, 8, 0)], 520);
}

#[test]
fn plans_of_floats() {
    let entries = [(0x08, 0, 12), (0x07, 8, 14), (0x05, 12, 0)];
    check("08 07 05", &entries, 16);
    check("07 08", &[(0x07, 0, 12), (0x08, 8, 14)], 16);
    check(
        "07 07 08",
        &[(0x07, 0, 12), (0x07, 4, 14), (0x08, 8, 0)],
        16,
    );
    check(
        "08 08 08",
        &[(0x08, 0, 12), (0x08, 8, 14), (0x08, 16, 0)],
        24,
    );
    check(
        "08 05 08",
        &[(0x08, 0, 12), (0x05, 8, 0), (0x08, 16, 0)],
        24,
    );
    let mixed = [(0x07, 0, 12), (0x05, 4, 0), (0x07, 8, 0), (0x05, 12, 0)];
    check("07 05 07 05", &mixed, 16);
    // Behind an integer no float has a floating register.
    check_on_both("05 08", &[(0x05, 0, 0), (0x08, 8, 0)], 16);
    check_on_both("05 07 07", &[(0x05, 0, 0), (0x07, 4, 0), (0x07, 8, 0)], 16);
    check_on_both("43 07", &[(0x43, 0, 0), (0x07, 4, 0)], 16);
}

#[test]
fn plans_of_floats_without_the_unit() {
    let entries = [(0x08, 0, 0), (0x07, 8, 0), (0x05, 12, 0)];
    check_without_unit("08 07 05", &entries, 16);
    check_without_unit("07 0A 08", &[(0x07, 0, 0), (0x08, 8, 0)], 16);
    check_without_unit("07 08", &[(0x07, 0, 0), (0x08, 8, 0)], 16);
    let entries = [(0x08, 0, 0), (0x08, 8, 0), (0x08, 16, 0)];
    check_without_unit("08 08 08", &entries, 24);
}

#[test]
fn a_marker_is_no_entry() {
    check("07 0A 08", &[(0x07, 0, 12), (0x08, 8, 0)], 16);
    check("07 0A 07", &[(0x07, 0, 12), (0x07, 4, 0)], 16);
    // Behind the second float it makes no difference to either.
    check("07 07 0A", &[(0x07, 0, 12), (0x07, 4, 14)], 16);
    check("07 0A", &[(0x07, 0, 12)], 16);
    check_on_both("05 0A 05", &[(0x05, 0, 0), (0x05, 4, 0)], 16);
    check_on_both("05 0A", &[(0x05, 0, 0)], 16);
}

#[test]
fn thirty_two_words_and_a_marker() {
    let entries: Vec<Entry> = (0..32).map(|index| (0x05, 4 * index, 0)).collect();
    check_on_both(&"05".repeat(32), &entries, 128);
    for named in [1, 2, 31, 32] {
        let signature = format!("{}0A{}", "05".repeat(named), "05".repeat(32 - named));
        check_on_both(&signature, &entries, 128);
    }
    // No entry is left, and the last one is used.
    assert_eq!(plan_of(Fpu, &[0x05; 32])[93..], [0x05, 124, 0, 32, 128]);
}

#[test]
fn a_return_pointer_counts_as_first() {
    check_on_both("0B", &[(0x0B, 0, 0)], 16);
    check_on_both("0B 08", &[(0x0B, 0, 0), (0x08, 8, 0)], 16);
    check_on_both("0B 07 07", &[(0x0B, 0, 0), (0x07, 4, 0), (0x07, 8, 0)], 16);
    check_on_both("0B 05 0A", &[(0x0B, 0, 0), (0x05, 4, 0)], 16);
}

#[test]
fn two_structures_up_to_the_limit() {
    check_on_both("FF FF", &[(0xFF, 0, 0), (0xFF, 512, 0)], 1024);
    check_on_both("FF FF 0A", &[(0xFF, 0, 0), (0xFF, 512, 0)], 1024);
    // A double in a floating pair takes up its eight bytes of the area too.
    check("08 FF", &[(0x08, 0, 12), (0xFF, 8, 0)], 520);
}

#[test]
fn refused_signatures() {
    for (signature, answer) in [
        ("00", refused(1, 0, 0)),
        ("05 09", refused(1, 1, 0)),
        ("05 0A 3F", refused(1, 2, 0)),
        ("0A", refused(2, 0, 0)),
        ("0B 0A", refused(2, 1, 0)),
        ("05 0A 0A", refused(2, 2, 0)),
        ("05 0B", refused(2, 1, 2)),
        ("FF FF 05", refused(5, 2, 3)),
        ("FF 0A FF 40", refused(5, 3, 3)),
    ] {
        // The room is of no account yet.
        for room in [0, 97, 98, 120] {
            assert_eq!(plan_refusal(&hex(signature), room), answer, "{signature}");
        }
    }
}

#[test]
fn a_thirty_third_argument_in_a_signature() {
    for room in [0, 97, 98, 120] {
        assert_eq!(plan_refusal(&[0x05; 33], room), refused(3, 32, 33));
        let signature = [&[0x05; 32][..], &[0x0A, 0x05]].concat();
        assert_eq!(plan_refusal(&signature, room), refused(3, 33, 33));
        let signature = [&[0x05; 32][..], &[0x0A, 0x0A]].concat();
        assert_eq!(plan_refusal(&signature, room), refused(2, 33, 0));
    }
}

#[test]
fn the_room_for_a_plan() {
    for signature in ["", "05 45", "08 07 05", "FF FF"] {
        let signature = hex(signature);
        for room in [0, 1, 3, 6, 48, 96, 97] {
            assert_eq!(plan_refusal(&signature, room), refused(7, 0, 0));
        }
        for room in [99, 120, 400] {
            let (answer, plan) = plan_in(Fpu, &signature, room);
            assert_eq!(answer, success(98));
            assert_eq!(plan, plan_of(Fpu, &signature));
        }
    }
}

#[test]
fn filled_images() {
    let plan = plan_words(&[(0x05, 0, 0), (0x45, 4, 0)], 16);
    let words = [(R(4), 9), (R(5), 0x0102_0304), (R(6), 0x0506_0000)];
    for device in DEVICES {
        let image = filled(device, &plan, &hex("05 00000009 45 010203040506"));
        assert_eq!(image, image_of(16, &words));
    }
    // The same plan fills another list of that signature.
    let words = [
        (R(4), 0xFFFF_FFFF),
        (R(5), 0xA1A2_A3A4),
        (R(6), 0xA5A6_0000),
    ];
    let image = filled(Fpu, &plan, &hex("05 FFFFFFFF 45 A1A2A3A4A5A6"));
    assert_eq!(image, image_of(16, &words));
    // Bytes become words, with their sign or without.
    let plan = plan_words(&[(0x01, 0, 0), (0x02, 4, 0)], 16);
    let words = [(R(4), 0xFFFF_FF80), (R(5), 0x80)];
    assert_eq!(
        filled(Fpu, &plan, &hex("01 80 02 80")),
        image_of(16, &words)
    );
}

#[test]
fn filled_floats() {
    let list = hex("08 3FF0000000000000 05 00000007 08 4000000000000000");
    let plan = plan_words(&[(0x08, 0, 12), (0x05, 8, 0), (0x08, 16, 0)], 24);
    let words = [(F(13), 0x3FF0_0000), (R(6), 7), (Stack(16), 0x4000_0000)];
    assert_eq!(filled(Fpu, &plan, &list), image_of(24, &words));
    let plan = plan_words(&[(0x08, 0, 0), (0x05, 8, 0), (0x08, 16, 0)], 24);
    let words = [(R(4), 0x3FF0_0000), (R(6), 7), (Stack(16), 0x4000_0000)];
    assert_eq!(filled(NoFpu, &plan, &list), image_of(24, &words));
}

/// Lists of all sorts with their plans on a device, by hand. The floating
/// registers are given as with the unit.
fn lists_with_plans(device: Device) -> Vec<(Vec<u8>, Vec<u32>)> {
    let register = |number| match device {
        Fpu => number,
        NoFpu => 0,
    };
    let floats = [
        (0x08, 0, register(12)),
        (0x07, 8, register(14)),
        (0x05, 12, 0),
    ];
    let unnamed = [(0x07, 0, register(12)), (0x08, 8, 0)];
    let full: Vec<Entry> = (0..32).map(|index| (0x05, 4 * index, 0)).collect();
    let structures = [(0xFF, 0, 0), (0xFF, 512, 0)];
    vec![
        (vec![], plan_words(&[], 16)),
        (
            hex("08 0102030405060708 07 11121314 05 00000009"),
            plan_words(&floats, 16),
        ),
        (
            hex("07 11121314 0A 08 0102030405060708"),
            plan_words(&unnamed, 16),
        ),
        (words(32), plan_words(&full, 128)),
        ([words(32), hex("0A")].concat(), plan_words(&full, 128)),
        (big_structures(), plan_words(&structures, 1024)),
    ]
}

#[test]
fn each_number_of_a_plan_counts() {
    for device in DEVICES {
        for (list, plan) in lists_with_plans(device) {
            assert_eq!(filled_in(device, &plan, &list, 1056).0.refusal, 0);
            for number in 0..98 {
                check_number(device, &plan, &list, number);
            }
        }
    }
}

/// The changes are one more, one less (2^32 - 1 more), what a byte or a halfword
/// can't hold, and the topmost bit. Room for the image makes no difference.
fn check_number(device: Device, plan: &[u32], list: &[u8], number: usize) {
    for change in [1, u32::MAX, 0x100, 0x1_0000, 0x8000_0000] {
        let mut altered = plan.to_vec();
        altered[number] = altered[number].wrapping_add(change);
        for room in [0, 1056] {
            let answer = fill_refusal(device, &altered, list, room);
            assert_eq!(answer, refused(20, 0, 0), "number {number}");
        }
    }
}

#[test]
fn another_number_of_words() {
    for device in DEVICES {
        for (list, plan) in lists_with_plans(device) {
            for length in [0, 1, 3, 95, 96, 97] {
                let answer = fill_refusal(device, &plan[..length], &list, 1056);
                assert_eq!(answer, refused(20, 0, 0), "{length} words");
            }
            for beyond in [&[0][..], &[16], &[0; 98], &plan] {
                let longer = [&plan, beyond].concat();
                let answer = fill_refusal(device, &longer, &list, 1056);
                assert_eq!(answer, refused(20, 0, 0), "{} words", longer.len());
            }
        }
    }
}

#[test]
fn plans_that_hold_the_right_numbers_elsewhere() {
    let list = hex("05 00000001 43 01020304");
    let plan = [(0x05, 0, 0), (0x43, 4, 0)];
    assert_eq!(filled(Fpu, &plan_words(&plan, 16), &list).len(), 48);
    for (entries, area) in [
        (&[(0x43, 4, 0), (0x05, 0, 0)][..], 16),
        (&[(0x43, 0, 0), (0x05, 4, 0)], 16),
        (&[(0x05, 4, 0), (0x43, 0, 0)], 16),
        (&[(0x05, 0, 0)], 16),
        (&[(0x05, 0, 0), (0x43, 4, 0), (0x05, 8, 0)], 16),
        (&[(0x05, 0, 0), (0x43, 4, 0), (0, 0, 0)], 16),
        (&[(0x05, 0, 0), (0x0A, 4, 0), (0x43, 4, 0)], 16),
        (&[(0x05, 0, 0), (0x43, 4, 0)], 8),
        (&[(0x05, 0, 0), (0x43, 4, 0)], 24),
    ] {
        let answer = fill_refusal(Fpu, &plan_words(entries, area), &list, 1100);
        assert_eq!(answer, refused(20, 0, 0), "{entries:X?}, area {area}");
    }
}

#[test]
fn a_plan_of_zeros_is_no_plan() {
    // That is what a refused plan is, and even the empty list has an area.
    for device in DEVICES {
        for (list, _) in lists_with_plans(device) {
            let answer = fill_refusal(device, &[0; 98], &list, 1056);
            assert_eq!(answer, refused(20, 0, 0));
        }
        let answer = fill_refusal(device, &[u32::MAX; 98], &[], 1056);
        assert_eq!(answer, refused(20, 0, 0));
    }
}

#[test]
fn plans_of_the_other_device() {
    // With a float in a floating register they differ.
    for (signature, list) in [
        ("07", "07 11121314"),
        ("08", "08 0102030405060708"),
        ("08 05", "08 0102030405060708 05 00000001"),
        ("07 0A 08", "07 11121314 0A 08 0102030405060708"),
    ] {
        let (signature, list) = (hex(signature), hex(list));
        for (device, other) in [(Fpu, NoFpu), (NoFpu, Fpu)] {
            let plan = plan_of(other, &signature);
            let answer = fill_refusal(device, &plan, &list, 1100);
            assert_eq!(answer, refused(20, 0, 0), "{signature:02X?}");
        }
    }
    // Without one they don't: a plan does not hold its device.
    let double = [(R(6), 0x0102_0304), (R(7), 0x0506_0708)];
    for (first, kind) in [("05", 0x05), ("0B", 0x0B)] {
        let signature = hex(&format!("{first} 08"));
        let list = hex(&format!("{first} 00000009 08 0102030405060708"));
        let image = image_of(16, &[&[(R(4), 9)], &double[..]].concat());
        for (device, other) in [(Fpu, NoFpu), (NoFpu, Fpu)] {
            let plan = plan_of(other, &signature);
            assert_eq!(plan, plan_words(&[(kind, 0, 0), (0x08, 8, 0)], 16));
            assert_eq!(filled(device, &plan, &list), image);
        }
    }
}

#[test]
fn a_marker_need_not_be_in_both() {
    let image = image_of(16, &[(R(4), 1), (R(5), 2)]);
    let lists = [
        "05 00000001 05 00000002",
        "05 00000001 0A 05 00000002",
        "05 00000001 05 00000002 0A",
    ];
    for signature in ["05 05", "05 0A 05", "05 05 0A"] {
        for list in lists {
            for device in DEVICES {
                let plan = plan_of(device, &hex(signature));
                assert_eq!(filled(device, &plan, &hex(list)), image);
            }
        }
    }
    // It is in the plan where it keeps a float from a floating register.
    let list = hex("07 00000001 0A 07 00000002");
    let plan = plan_of(Fpu, &hex("07 07"));
    assert_eq!(fill_refusal(Fpu, &plan, &list, 1100), refused(20, 0, 0));
    let plan = plan_of(NoFpu, &hex("07 07"));
    assert_eq!(filled(NoFpu, &plan, &list), image);
}

#[test]
fn kinds_of_one_length_and_alignment_are_not_the_same() {
    // Four bytes aligned to words, and eight aligned to doublewords.
    let word = ["05 01020304", "43 01020304", "0B 01020304"];
    let doubleword = ["06 0102030405060708", "C0 0102030405060708"];
    let word_image = image_of(16, &[(R(4), 0x0102_0304)]);
    let doubleword_image = image_of(16, &[(R(4), 0x0102_0304), (R(5), 0x0506_0708)]);
    for (lists, image) in [(&word[..], word_image), (&doubleword[..], doubleword_image)] {
        for list in lists {
            for other in lists {
                let (list, other) = (hex(list), hex(other));
                let plan = plan_of(Fpu, &other[..1]);
                if list == other {
                    assert_eq!(filled(Fpu, &plan, &list), image);
                } else {
                    let answer = fill_refusal(Fpu, &plan, &list, 1100);
                    assert_eq!(answer, refused(20, 0, 0), "{list:02X?}");
                }
            }
        }
    }
}

/// Lists that are refused 1 to 5.
fn refused_lists() -> Vec<(Vec<u8>, Answer)> {
    let word = words(1);
    let cut_off = hex("05 00");
    vec![
        (hex("00"), refused(1, 0, 0)),
        ([&word[..], &hex("09")].concat(), refused(1, 5, 0)),
        (hex("0A"), refused(2, 0, 0)),
        (hex("0B 00000000 0A"), refused(2, 5, 0)),
        ([&word[..], &hex("0A 0A")].concat(), refused(2, 6, 0)),
        ([&word[..], &hex("0B 00000000")].concat(), refused(2, 5, 2)),
        (words(33), refused(3, 160, 33)),
        ([words(32), hex("05")].concat(), refused(3, 160, 33)),
        ([words(32), hex("0A 05")].concat(), refused(3, 161, 33)),
        (cut_off.clone(), refused(4, 0, 1)),
        ([&word[..], &hex("0A 45 00")].concat(), refused(4, 6, 2)),
        ([big_structures(), word].concat(), refused(5, 1026, 3)),
        ([big_structures(), cut_off].concat(), refused(4, 1026, 3)),
    ]
}

#[test]
fn refused_lists_come_before_plans_and_room() {
    let plans = [vec![], vec![0; 97], vec![0; 98], plan_words(&[], 16)];
    for (list, answer) in refused_lists() {
        for plan in &plans {
            for room in [0, 1100] {
                for device in DEVICES {
                    let given = fill_refusal(device, plan, &list, room);
                    assert_eq!(given, answer, "list {list:02X?}");
                }
            }
        }
    }
    // Also where the plan is that of the records before the refused one.
    let list = hex("05 00000000 09");
    let plan = plan_words(&[(0x05, 0, 0)], 16);
    assert_eq!(fill_refusal(Fpu, &plan, &list, 0), refused(1, 5, 0));
}

#[test]
fn another_plan_comes_before_room() {
    for device in DEVICES {
        for (list, plan) in lists_with_plans(device) {
            let length = 32 + plan[97] as usize;
            let mut altered = plan.clone();
            altered[97] += 8;
            for room in [0, 47, length - 1] {
                let answer = fill_refusal(device, &altered, &list, room);
                assert_eq!(answer, refused(20, 0, 0));
                let answer = fill_refusal(device, &plan, &list, room);
                assert_eq!(answer, refused(7, 0, 0), "room for {room} bytes");
            }
            // Just enough room is enough, and more of it is kept.
            for room in [length, length + 1, 1100] {
                let (answer, _) = filled_in(device, &plan, &list, room);
                assert_eq!(answer, success(length));
            }
        }
    }
}

/// The signature in a buffer of `room` bytes. All but it must be kept.
fn signature_in(list: &[u8], room: usize) -> (Answer, Vec<u8>) {
    let mut buffer = vec![0xA5; room];
    let answer = signature(list, &mut buffer);
    let (kinds, beyond) = buffer.split_at(answer.length as usize);
    assert!(beyond.iter().all(|&byte| byte == 0xA5));
    (answer, kinds.to_vec())
}

#[test]
fn signatures_of_lists() {
    let full = [words(1), hex("0A"), words(31)].concat();
    let full_signature = [&[0x05, 0x0A][..], &[0x05; 31]].concat();
    for (list, kinds) in [
        (vec![], vec![]),
        (hex("05 00000009 45 010203040506"), hex("05 45")),
        (hex("07 11121314 0A 08 0A0A0A0A0A0A0A0A"), hex("07 0A 08")),
        (hex("01 80 03 8000 40 05 0A"), hex("01 03 40 0A")),
        (hex("0B 00000009 06 0102030405060708"), hex("0B 06")),
        (big_structures(), hex("FF FF")),
        (words(32), vec![0x05; 32]),
        (full, full_signature),
    ] {
        let length = kinds.len();
        for room in [length, length + 1, 64] {
            let given = signature_in(&list, room);
            assert_eq!(given, (success(length), kinds.clone()));
        }
        for room in 0..length {
            assert_eq!(signature_in(&list, room), (refused(7, 0, 0), vec![]));
        }
    }
}

#[test]
fn lists_that_have_no_signature() {
    for (list, answer) in refused_lists() {
        for room in [0, 1, 33, 64] {
            let given = signature_in(&list, room);
            assert_eq!(given, (answer, vec![]), "list {list:02X?}");
        }
    }
}

#[test]
fn the_pair_answers_what_the_writer_answers() {
    let kinds = hex("01 02 03 04 05 06 07 08 0A 0B 40 42 43 45 4F 53 C0 C2 FF");
    for &first in &kinds {
        check_against_writer(&[first]);
        for &second in &kinds {
            check_against_writer(&[first, second]);
            for &third in &kinds {
                check_against_writer(&[first, second, third]);
                check_against_writer(&[first, second, 0x0A, third]);
            }
        }
    }
}

/// Tries a list whose bytes differ, with room for its image and without.
fn check_against_writer(kinds: &[u8]) {
    let Some(lengths) = model::lengths(kinds) else {
        return;
    };
    let words = (0..lengths.image / 4).flat_map(|at| [0, 0, 0, at as u8 & 0x7F]);
    let words: Vec<u8> = words.collect();
    for device in DEVICES {
        let mut list = vec![0; lengths.list];
        assert_eq!(read(device, kinds, &words, &mut list).refusal, 0);
        assert_eq!(signature_in(&list, 33).1, kinds);
        let plan = plan_of(device, kinds);
        for room in [lengths.image - 1, lengths.image, 1100] {
            let mut image = vec![0xA5; room];
            let answer = write(device, &list, &mut image);
            image.truncate(answer.length as usize);
            let pair = filled_in(device, &plan, &list, room);
            assert_eq!(pair, (answer, image), "{kinds:02X?}");
        }
    }
}
