//! The cases, edges and examples that the rules spell out.

mod common;

use model::{epilogue, frame, prologue, read, write, Answer, Device, Layout, Request};

use common::{hex, image_of, on_both_devices, refused, success, At};
use At::{Floating as F, General as R, Stack};
use Device::{Fpu, NoFpu};

/// Writes into a buffer that is larger than any image and gives the image.
fn written(device: Device, list: &[u8]) -> Vec<u8> {
    let mut buffer = [0xA5; 1100];
    let answer = write(device, list, &mut buffer);
    let length = answer.length as usize;
    assert_eq!(answer, success(length), "list {list:02X?}");
    let (image, beyond) = buffer.split_at(length);
    assert!(beyond.iter().all(|&byte| byte == 0xA5));
    image.to_vec()
}

fn read_back(device: Device, signature: &[u8], image: &[u8]) -> Vec<u8> {
    let mut buffer = [0xA5; 1100];
    let answer = read(device, signature, image, &mut buffer);
    let length = answer.length as usize;
    assert_eq!(answer, success(length));
    let (list, beyond) = buffer.split_at(length);
    assert!(beyond.iter().all(|&byte| byte == 0xA5));
    list.to_vec()
}

fn write_refusal(list: &[u8]) -> Answer {
    on_both_devices(|device| {
        let mut buffer = [0xA5; 1100];
        let answer = write(device, list, &mut buffer);
        assert_eq!(buffer, [0xA5; 1100]);
        answer
    })
}

fn read_refusal(signature: &[u8], image: &[u8], room: usize) -> Answer {
    on_both_devices(|device| {
        let mut buffer = vec![0xA5; room];
        let answer = read(device, signature, image, &mut buffer);
        assert!(buffer.iter().all(|&byte| byte == 0xA5));
        answer
    })
}

/// With a floating-point unit, a list must give the image and the image must
/// give the list back.
fn check(list: &str, signature: &str, area: usize, words: &[(At, u32)]) {
    let (list, signature) = (hex(list), hex(signature));
    let image = image_of(area, words);
    assert_eq!(written(Fpu, &list), image, "list {list:02X?}");
    assert_eq!(read_back(Fpu, &signature, &image), list);
}

const WORD: &str = "05 00000000";

fn big_structure() -> Vec<u8> {
    let mut record = vec![0; 513];
    record[0] = 0xFF;
    record
}

#[test]
fn cases_of_the_table() {
    check("", "", 16, &[]);
    check("01 80", "01", 16, &[(R(4), 0xFFFF_FF80)]);
    check(
        "08 0102030405060708 07 11121314",
        "08 07",
        16,
        &[
            (F(12), 0x0506_0708),
            (F(13), 0x0102_0304),
            (F(14), 0x1112_1314),
        ],
    );
    check(
        "07 11121314 08 0102030405060708",
        "07 08",
        16,
        &[
            (F(12), 0x1112_1314),
            (F(14), 0x0506_0708),
            (F(15), 0x0102_0304),
        ],
    );
    check(
        "07 11121314 07 21222324 08 0102030405060708",
        "07 07 08",
        16,
        &[
            (F(12), 0x1112_1314),
            (F(14), 0x2122_2324),
            (R(6), 0x0102_0304),
            (R(7), 0x0506_0708),
        ],
    );
    check(
        "05 00000009 08 0102030405060708",
        "05 08",
        16,
        &[(R(4), 9), (R(6), 0x0102_0304), (R(7), 0x0506_0708)],
    );
    check(
        "07 00000001 05 00000002 07 00000003 05 00000004",
        "07 05 07 05",
        16,
        &[(F(12), 1), (R(5), 2), (R(6), 3), (R(7), 4)],
    );
    check(
        "05 00000001 05 00000002 05 00000003 08 0102030405060708",
        "05 05 05 08",
        24,
        &[
            (R(4), 1),
            (R(5), 2),
            (R(6), 3),
            (Stack(16), 0x0102_0304),
            (Stack(20), 0x0506_0708),
        ],
    );
    check(
        "07 00000001 0A 08 0102030405060708",
        "07 0A 08",
        16,
        &[(F(12), 1), (R(6), 0x0102_0304), (R(7), 0x0506_0708)],
    );
    check(
        "0B 00000001 08 0102030405060708",
        "0B 08",
        16,
        &[(R(4), 1), (R(6), 0x0102_0304), (R(7), 0x0506_0708)],
    );
    check(
        "05 00000009 45 010203040506",
        "05 45",
        16,
        &[(R(4), 9), (R(5), 0x0102_0304), (R(6), 0x0506_0000)],
    );
    check(
        "05 00000009 53 0102030405060708 1112131415161718 21222324",
        "05 53",
        24,
        &[
            (R(4), 9),
            (R(5), 0x0102_0304),
            (R(6), 0x0506_0708),
            (R(7), 0x1112_1314),
            (Stack(16), 0x1516_1718),
            (Stack(20), 0x2122_2324),
        ],
    );
}

#[test]
fn the_case_in_full() {
    let list = hex("08 3FF0000000000000 05 00000007 08 4000000000000000");
    let image = hex(
        "00000000 00000000 00000007 00000000 00000000 3FF00000 00000000 00000000
                     00000000 00000000 00000000 00000000 40000000 00000000",
    );
    assert_eq!(written(Fpu, &list), image);
    assert_eq!(image.len(), 56);
    assert_eq!(read_back(Fpu, &hex("08 05 08"), &image), list);
}

/// The kind byte and the body's size for a letter of the figures; the ellipsis
/// is a dot.
fn kind_and_size(letter: char) -> (u8, usize) {
    match letter {
        'n' => (0x05, 4),
        'j' => (0x06, 8),
        's' => (0x07, 4),
        'd' => (0x08, 8),
        '.' => (0x0A, 0),
        _ => unreachable!("no such letter: {letter}"),
    }
}

/// Where each argument of a figure's example begins, with a floating-point
/// unit. A double in a floating pair begins in the odd register, which holds
/// its high half.
fn check_figure(kinds: &str, first_words: &[At]) {
    let mut list = Vec::new();
    let mut signature = Vec::new();
    let mut numbers = 1..;
    for kind in kinds.chars() {
        let (byte, size) = kind_and_size(kind);
        list.push(byte);
        signature.push(byte);
        // A number of its own in the first word tells the arguments apart.
        if size > 0 {
            list.extend(numbers.next().unwrap_or(0u32).to_be_bytes());
            list.resize(list.len() + size - 4, 0);
        }
    }
    let image = written(Fpu, &list);
    for (index, at) in first_words.iter().enumerate() {
        let word = &image[4 * at.word()..][..4];
        assert_eq!(word, (index as u32 + 1).to_be_bytes(), "{kinds}, {at:?}");
    }
    let carrying = image.chunks(4).filter(|word| word[3] != 0).count();
    assert_eq!(carrying, first_words.len(), "{kinds}");
    assert_eq!(read_back(Fpu, &signature, &image), list);
}

#[test]
fn figure_3_22() {
    check_figure("dd", &[F(13), F(15)]);
    check_figure("ss", &[F(12), F(14)]);
    check_figure("sd", &[F(12), F(15)]);
    check_figure("ds", &[F(13), F(14)]);
    check_figure("nnnn", &[R(4), R(5), R(6), R(7)]);
    check_figure("dnd", &[F(13), R(6), Stack(16)]);
    check_figure("dnn", &[F(13), R(6), R(7)]);
    check_figure("snn", &[F(12), R(5), R(6)]);
    check_figure("nnnd", &[R(4), R(5), R(6), Stack(16)]);
    check_figure("nnns", &[R(4), R(5), R(6), R(7)]);
    check_figure("nnd", &[R(4), R(5), R(6)]);
    check_figure("nd", &[R(4), R(6)]);
    check_figure("ssss", &[F(12), F(14), R(6), R(7)]);
    check_figure("snsn", &[F(12), R(5), R(6), R(7)]);
    // Misprinted as `$6` in the figure.
    check_figure("dss", &[F(13), F(14), R(7)]);
    check_figure("ssd", &[F(12), F(14), R(6)]);
    check_figure("nsns", &[R(4), R(5), R(6), R(7)]);
    check_figure("nsnn", &[R(4), R(5), R(6), R(7)]);
    check_figure("nnsn", &[R(4), R(5), R(6), R(7)]);
}

#[test]
fn figure_3_22_with_an_ellipsis_in_the_second_slot() {
    check_figure("n.dd", &[R(4), R(6), Stack(16)]);
    check_figure("s.n", &[F(12), R(5)]);
    check_figure("s.nd", &[F(12), R(5), R(6)]);
    // Misprinted as "f6" in the figure.
    check_figure("d.n", &[F(13), R(6)]);
    check_figure("d.nd", &[F(13), R(6), Stack(16)]);
}

#[test]
fn further_examples_with_long_integers() {
    check_figure("dsd", &[F(13), F(14), Stack(16)]);
    check_figure("dsss", &[F(13), F(14), R(7), Stack(16)]);
    check_figure("nsd", &[R(4), R(5), R(6)]);
    check_figure("jd", &[R(4), R(6)]);
    check_figure("js", &[R(4), R(6)]);
    check_figure("s.d", &[F(12), R(6)]);
    check_figure("d.s", &[F(13), R(6)]);
    check_figure("j.d", &[R(4), R(6)]);
    check_figure("ss.", &[F(12), F(14)]);
}

/// Where every word of an example lies without a floating-point unit. The words
/// are numbered from 1 in the order of the list.
fn check_emulation(kinds: &str, area: usize, places: &[At]) {
    let mut list = Vec::new();
    let mut signature = Vec::new();
    let mut numbers = 1u32..;
    for kind in kinds.chars() {
        let (byte, size) = kind_and_size(kind);
        signature.push(byte);
        list.push(byte);
        list.extend(
            numbers
                .by_ref()
                .take(size / 4)
                .flat_map(|number| number.to_be_bytes()),
        );
    }
    let words: Vec<(At, u32)> = places.iter().copied().zip(1..).collect();
    let mut image = image_of(area, &words);
    assert_eq!(written(NoFpu, &list), image, "{kinds}");
    assert_eq!(read_back(NoFpu, &signature, &image), list, "{kinds}");
    image[16..32].fill(0xEE);
    assert_eq!(read_back(NoFpu, &signature, &image), list, "{kinds}");
}

/// The first sequence of each entry of the first table in source 001.
#[test]
fn emulation_column() {
    check_emulation("nnnn", 16, &[R(4), R(5), R(6), R(7)]);
    check_emulation("ssss", 16, &[R(4), R(5), R(6), R(7)]);
    check_emulation("dd", 16, &[R(4), R(5), R(6), R(7)]);
    check_emulation("ss", 16, &[R(4), R(5)]);
    check_emulation("ds", 16, &[R(4), R(5), R(6)]);
    check_emulation("sd", 16, &[R(4), R(6), R(7)]);
    check_emulation("ssd", 16, &[R(4), R(5), R(6), R(7)]);
    check_emulation("dsd", 24, &[R(4), R(5), R(6), Stack(16), Stack(20)]);
    check_emulation("dsss", 24, &[R(4), R(5), R(6), R(7), Stack(16)]);
    check_emulation("nd", 16, &[R(4), R(6), R(7)]);
    check_emulation("nsd", 16, &[R(4), R(5), R(6), R(7)]);
    check_emulation("jd", 16, &[R(4), R(5), R(6), R(7)]);
    check_emulation("js", 16, &[R(4), R(5), R(6)]);
}

/// Likewise of the second table, with an ellipsis behind the first argument.
#[test]
fn emulation_column_with_an_ellipsis() {
    check_emulation("n.d", 16, &[R(4), R(6), R(7)]);
    check_emulation("s.d", 16, &[R(4), R(6), R(7)]);
    check_emulation("d.s", 16, &[R(4), R(5), R(6)]);
    check_emulation("d.nd", 24, &[R(4), R(5), R(6), Stack(16), Stack(20)]);
    check_emulation("j.d", 16, &[R(4), R(5), R(6), R(7)]);
}

#[test]
fn a_double_a_single_and_a_double_without_a_unit() {
    let list = hex("08 3FF0000000000000 07 40400000 08 4000000000000001");
    let image = hex(
        "3FF00000 00000000 40400000 00000000 00000000 00000000 00000000 00000000
                     00000000 00000000 00000000 00000000 40000000 00000001",
    );
    assert_eq!(written(NoFpu, &list), image);
    assert_eq!(image.len(), 56);
    assert_eq!(read_back(NoFpu, &hex("08 07 08"), &image), list);
}

#[test]
fn without_a_unit_the_reader_ignores_the_floating_words() {
    let mut short_float = image_of(16, &[(R(4), 0xFFFF_FF80), (R(5), 0x1112_1314)]);
    let mut two_floats = image_of(16, &[(R(4), 0x1112_1314), (R(5), 0x2122_2324)]);
    let mut nothing = image_of(16, &[]);
    for byte in 0..=0xFF {
        for image in [&mut short_float, &mut two_floats, &mut nothing] {
            image[16..32].fill(byte);
        }
        assert_eq!(
            read_back(NoFpu, &hex("01 07"), &short_float),
            hex("01 80 07 11121314")
        );
        assert_eq!(
            read_back(NoFpu, &hex("07 07"), &two_floats),
            hex("07 11121314 07 21222324")
        );
        assert_eq!(read_back(NoFpu, &[], &nothing), []);
    }
}

#[test]
fn a_return_pointer_keeps_floats_out_of_their_registers() {
    check(
        "0B 00000001 07 00000002 07 00000003",
        "0B 07 07",
        16,
        &[(R(4), 1), (R(5), 2), (R(6), 3)],
    );
}

#[test]
fn the_last_argument_may_end_at_1024() {
    let mut list = [big_structure(), big_structure()].concat();
    assert_eq!(written(Fpu, &list).len(), 1056);
    // A marker behind it is no argument and takes no room.
    assert_eq!(written(Fpu, &[&list[..], &[0x0A]].concat()).len(), 1056);
    list.extend(hex(WORD));
    assert_eq!(write_refusal(&list), refused(5, 1026, 3));
    assert_eq!(read_refusal(&[0xFF, 0xFF, 0x05], &[], 0), refused(5, 2, 3));
    // A body that is cut off comes before the limit, where there are bodies.
    assert_eq!(write_refusal(&list[..1028]), refused(4, 1026, 3));
    // A return pointer counts.
    assert_eq!(read_refusal(&[0x0B, 0xFF, 0xFF], &[], 0), refused(5, 2, 3));
}

#[test]
fn thirty_two_arguments_are_enough() {
    let mut list = hex(WORD).repeat(32);
    assert_eq!(written(Fpu, &list).len(), 32 + 128);
    assert_eq!(written(Fpu, &[&list[..], &[0x0A]].concat()).len(), 32 + 128);
    let two_markers = [&list[..], &[0x0A, 0x0A]].concat();
    assert_eq!(write_refusal(&two_markers), refused(2, 161, 0));
    assert_eq!(write_refusal(&list[..159]), refused(4, 155, 32));
    list.extend(hex(WORD));
    assert_eq!(write_refusal(&list), refused(3, 160, 33));
    // The thirty-third needs no body to be refused, nor the right place.
    assert_eq!(write_refusal(&list[..161]), refused(3, 160, 33));
    list[160] = 0x0B;
    assert_eq!(write_refusal(&list), refused(2, 160, 33));
    list[160] = 0x09;
    assert_eq!(write_refusal(&list), refused(1, 160, 0));
}

#[test]
fn thirty_third_arguments_of_signatures() {
    for (kind, number, argument) in [(0x05, 3, 33), (0x0B, 2, 33), (0x09, 1, 0)] {
        let signature = [&[0x05; 32][..], &[kind]].concat();
        let answer = refused(number, 32, argument);
        assert_eq!(read_refusal(&signature, &[], 0), answer);
    }
}

#[test]
fn thirty_third_arguments_behind_a_marker() {
    let list = [hex("05 00000000 0A"), hex(WORD).repeat(31)].concat();
    assert_eq!(written(Fpu, &list).len(), 32 + 128);
    for (kind, number, argument) in [(0x05, 3, 33), (0x0B, 2, 33), (0x0A, 2, 0), (0x09, 1, 0)] {
        let list = [&list[..], &[kind]].concat();
        assert_eq!(write_refusal(&list), refused(number, 161, argument));
        let signature = [&[0x05, 0x0A][..], &[0x05; 31], &[kind]].concat();
        let answer = refused(number, 33, argument);
        assert_eq!(read_refusal(&signature, &[], 0), answer);
    }
}

#[test]
fn refused_records() {
    assert_eq!(write_refusal(&hex("05 00")), refused(4, 0, 1));
    assert_eq!(write_refusal(&hex("05")), refused(4, 0, 1));
    assert_eq!(write_refusal(&hex("0B 000000")), refused(4, 0, 1));
    assert_eq!(write_refusal(&hex("0B 00000000 01")), refused(4, 5, 2));
    assert_eq!(
        write_refusal(&hex("01 00 45 010203040506 03 00")),
        refused(4, 9, 3)
    );
    assert_eq!(write_refusal(&hex("0A")), refused(2, 0, 0));
    assert_eq!(write_refusal(&hex("0B 00000000 0A")), refused(2, 5, 0));
    assert_eq!(
        write_refusal(&hex("0B 00000000 0B 00000000")),
        refused(2, 5, 2)
    );
    assert_eq!(
        write_refusal(&hex("05 00000000 0B 00000000")),
        refused(2, 5, 2)
    );
    assert_eq!(write_refusal(&hex("01 00 0B 00000000")), refused(2, 2, 2));
    assert_eq!(write_refusal(&hex("01 00 0A 01 00 0A")), refused(2, 5, 0));
    assert_eq!(write_refusal(&hex("00")), refused(1, 0, 0));
    assert_eq!(write_refusal(&hex("05 00000000 3F")), refused(1, 5, 0));
    assert_eq!(read_refusal(&hex("0A"), &[], 0), refused(2, 0, 0));
    assert_eq!(read_refusal(&hex("0B 0A"), &[], 0), refused(2, 1, 0));
    assert_eq!(read_refusal(&hex("05 0A 0A"), &[], 0), refused(2, 2, 0));
    assert_eq!(read_refusal(&hex("05 05 0B"), &[], 0), refused(2, 2, 3));
    assert_eq!(read_refusal(&hex("05 3F"), &[], 0), refused(1, 1, 0));
}

/// The marker's byte counts for the place of what stands behind it, but the
/// marker is no argument.
#[test]
fn refused_records_behind_a_marker() {
    let list = hex("05 00000000 0A 01 00 0B 00000000");
    assert_eq!(write_refusal(&list), refused(2, 8, 3));
    assert_eq!(write_refusal(&list[..7]), refused(4, 6, 2));
    assert_eq!(write_refusal(&hex("01 00 0A 01 00 09")), refused(1, 5, 0));
    assert_eq!(read_refusal(&hex("05 0A 0B"), &[], 0), refused(2, 2, 2));
    assert_eq!(read_refusal(&hex("05 0A 09"), &[], 0), refused(1, 2, 0));

    let list = [big_structure(), vec![0x0A], big_structure(), hex(WORD)].concat();
    assert_eq!(write_refusal(&list), refused(5, 1027, 3));
    assert_eq!(read_refusal(&hex("FF 0A FF 05"), &[], 0), refused(5, 3, 3));
}

#[test]
fn the_reader_refuses_6_then_7_then_8() {
    let image = image_of(16, &[(R(4), 0x80)]);
    assert_eq!(read_refusal(&[0x01], &image, 2), refused(8, 0, 1));
    assert_eq!(read_refusal(&[0x01], &image, 1), refused(7, 0, 0));
    assert_eq!(read_refusal(&[0x01], &image[..47], 1), refused(6, 0, 0));
    assert_eq!(read_refusal(&[0x01], &[], 0), refused(6, 0, 0));
}

#[test]
fn the_reader_names_the_first_improper_promotion() {
    let image = image_of(16, &[(R(5), 0x100)]);
    for (signature, answer) in [
        ("05 01", refused(8, 1, 2)),
        ("05 02 0A", refused(8, 1, 2)),
        ("0B 02", refused(8, 1, 2)),
        // The marker is in the place but not in the number.
        ("05 0A 01", refused(8, 2, 2)),
        ("05 0A 02", refused(8, 2, 2)),
    ] {
        assert_eq!(read_refusal(&hex(signature), &image, 20), answer);
    }
    // The first of two, and the second alone.
    let signature = hex("02 0A 05 04");
    let two = image_of(16, &[(R(4), 0x100), (R(6), 0x1_0000)]);
    assert_eq!(read_refusal(&signature, &two, 20), refused(8, 0, 1));
    let second = image_of(16, &[(R(4), 0xFF), (R(6), 0x1_0000)]);
    assert_eq!(read_refusal(&signature, &second, 20), refused(8, 3, 3));
    // The last of 32 arguments, the marker before it.
    let signature = [&[0x05; 31][..], &[0x0A, 0x03]].concat();
    let last = image_of(128, &[(Stack(124), 0x8000)]);
    assert_eq!(read_refusal(&signature, &last, 200), refused(8, 32, 32));
}

#[test]
fn the_reader_takes_only_proper_promotions() {
    let read_word = |kind, word| {
        let mut list = [0; 3];
        read(Fpu, &[kind], &image_of(16, &[(R(4), word)]), &mut list).refusal
    };
    for (kind, proper, improper) in [
        (0x01, 0xFFFF_FF80, 0x0000_0080),
        (0x01, 0x0000_007F, 0xFFFF_FF7F),
        (0x02, 0x0000_00FF, 0x0000_0100),
        (0x02, 0x0000_0080, 0xFFFF_FF80),
        (0x03, 0xFFFF_8000, 0x0000_8000),
        (0x03, 0x0000_7FFF, 0x7FFF_7FFF),
        (0x04, 0x0000_FFFF, 0x0001_0000),
        (0x04, 0x0000_8000, 0xFFFF_8000),
    ] {
        assert_eq!(read_word(kind, proper), 0, "{kind:02X} {proper:08X}");
        assert_eq!(read_word(kind, improper), 8, "{kind:02X} {improper:08X}");
    }
}

#[test]
fn the_reader_ignores_what_carries_nothing() {
    let list = hex("07 11121314 05 00000009 45 010203040506");
    let mut image = written(Fpu, &list);
    // `$4` is the single's unused home register, `$f13` to `$f15` are free,
    // the last two bytes of `$7` are fill, and the area holds only homes.
    for hole in [0..4, 14..16, 20..48] {
        image[hole].fill(0xEE);
    }
    assert_eq!(read_back(Fpu, &hex("07 05 45"), &image), list);
}

#[test]
fn output_buffers_of_every_length() {
    let list = hex("05 00000009 45 010203040506");
    let image = written(Fpu, &list);
    for room in 0..image.len() + 4 {
        let mut buffer = vec![0xA5; room];
        let answer = write(Fpu, &list, &mut buffer);
        if room < image.len() {
            assert_eq!(answer, refused(7, 0, 0));
            assert!(buffer.iter().all(|&byte| byte == 0xA5));
        } else {
            assert_eq!(answer, success(image.len()));
            assert_eq!(buffer[..image.len()], image);
            assert!(buffer[image.len()..].iter().all(|&byte| byte == 0xA5));
        }
    }
}

const EXAMPLE: Request = Request {
    leaf: false,
    locals: 4,
    outgoing: 0,
    general: 1 << 16 | 1 << 31,
    pairs: 0,
};

/// A layout that doesn't save `$28`.
fn layout(numbers: [u32; 5]) -> Layout {
    let [frame, build, floating, general, locals] = numbers;
    Layout {
        refusal: 0,
        place: 0,
        frame,
        build,
        floating,
        general,
        locals,
        gp_saved: 0,
        gp: 0,
    }
}

/// One that saves it at an offset.
fn layout_with_gp(numbers: [u32; 5], gp: u32) -> Layout {
    Layout {
        gp_saved: 1,
        gp,
        ..layout(numbers)
    }
}

/// `$28`, the global pointer.
const GP: u32 = 1 << 28;

/// `$16` to `$23`, `$28`, `$30` and `$31`.
const ALL_REGISTERS: u32 = 0xD0FF_0000;

fn codes(device: Device, request: Request) -> (Vec<u8>, Vec<u8>) {
    let mut buffer = [0xA5; 128];
    let answer = prologue(device, request, &mut buffer);
    let length = answer.length as usize;
    assert_eq!(answer, success(length));
    let first = buffer[..length].to_vec();
    let answer = epilogue(device, request, &mut buffer);
    let length = answer.length as usize;
    assert_eq!(answer, success(length));
    (first, buffer[..length].to_vec())
}

#[test]
fn the_example_frame() {
    // It saves no pair, so it is the same on both devices.
    for device in [Fpu, NoFpu] {
        assert_eq!(frame(device, EXAMPLE), layout([32, 16, 16, 16, 24]));
        let (prologue, epilogue) = codes(device, EXAMPLE);
        assert_eq!(prologue, hex("27BDFFE0 AFB00010 AFBF0014"));
        assert_eq!(epilogue, hex("8FB00010 8FBF0014 03E00008 27BD0020"));
    }
}

#[test]
fn short_code_buffers_are_refused() {
    for room in 0..20 {
        let mut code = vec![0xA5; room];
        let expected = if room < 12 {
            refused(13, 0, 0)
        } else {
            success(12)
        };
        assert_eq!(prologue(Fpu, EXAMPLE, &mut code), expected);
        let mut code = vec![0xA5; room];
        let expected = if room < 16 {
            refused(13, 0, 0)
        } else {
            success(16)
        };
        assert_eq!(epilogue(Fpu, EXAMPLE, &mut code), expected);
        assert!(room >= 16 || code.iter().all(|&byte| byte == 0xA5));
    }
}

#[test]
fn a_leaf_without_anything_has_no_frame() {
    let request = Request {
        leaf: true,
        ..Request::default()
    };
    for device in [Fpu, NoFpu] {
        assert_eq!(frame(device, request), layout([0; 5]));
        assert_eq!(prologue(device, request, &mut []), success(0));
        assert_eq!(epilogue(device, request, &mut [0; 7]), refused(13, 0, 0));
        assert_eq!(codes(device, request).1, hex("03E00008 00000000"));
    }
}

const LARGEST: Request = Request {
    leaf: false,
    locals: 16_384,
    outgoing: 1_024,
    general: ALL_REGISTERS,
    pairs: 63,
};

/// The general area has 44 bytes, rounded up to 48.
#[test]
fn the_largest_frame() {
    assert_eq!(
        frame(Fpu, LARGEST),
        layout_with_gp([17_504, 1024, 1024, 1072, 1072 + 48], 1104)
    );
    // One byte less than the code has.
    assert_eq!(prologue(Fpu, LARGEST, &mut [0; 95]), refused(13, 0, 0));
    assert_eq!(epilogue(Fpu, LARGEST, &mut [0; 99]), refused(13, 0, 0));
    let (prologue, epilogue) = codes(Fpu, LARGEST);
    // -17,504 is BBA0 in sixteen bits.
    let stores = hex("27BDBBA0
        E7B40400 E7B50404 E7B60408 E7B7040C E7B80410 E7B90414
        E7BA0418 E7BB041C E7BC0420 E7BD0424 E7BE0428 E7BF042C
        AFB00430 AFB10434 AFB20438 AFB3043C AFB40440 AFB50444 AFB60448 AFB7044C
        AFBC0450 AFBE0454 AFBF0458");
    let loads = hex("
        C7B40400 C7B50404 C7B60408 C7B7040C C7B80410 C7B90414
        C7BA0418 C7BB041C C7BC0420 C7BD0424 C7BE0428 C7BF042C
        8FB00430 8FB10434 8FB20438 8FB3043C 8FB40440 8FB50444 8FB60448 8FB7044C
        8FBC0450 8FBE0454 8FBF0458 03E00008 27BD4460");
    assert_eq!((prologue.len(), epilogue.len()), (96, 100));
    assert_eq!(prologue, stores);
    assert_eq!(epilogue, loads);
}

#[test]
fn the_largest_frame_without_a_unit() {
    let request = Request {
        pairs: 0,
        ..LARGEST
    };
    // The floating save area is empty, which leaves out 48 of 17,504 bytes.
    assert_eq!(
        frame(NoFpu, request),
        layout_with_gp([17_456, 1024, 1024, 1024, 1024 + 48], 1056)
    );
    let (prologue, epilogue) = codes(NoFpu, request);
    // -17,456 is BBD0 in sixteen bits.
    let stores = hex("27BDBBD0
        AFB00400 AFB10404 AFB20408 AFB3040C AFB40410 AFB50414 AFB60418 AFB7041C
        AFBC0420 AFBE0424 AFBF0428");
    let loads = hex("
        8FB00400 8FB10404 8FB20408 8FB3040C 8FB40410 8FB50414 8FB60418 8FB7041C
        8FBC0420 8FBE0424 8FBF0428 03E00008 27BD4430");
    assert_eq!((prologue.len(), epilogue.len()), (48, 52));
    assert_eq!(prologue, stores);
    assert_eq!(epilogue, loads);
}

/// Ten registers take 40 bytes, which leaves no padding.
#[test]
fn the_largest_frame_that_keeps_no_global_pointer() {
    let request = Request {
        general: ALL_REGISTERS & !GP,
        ..LARGEST
    };
    assert_eq!(
        frame(Fpu, request),
        layout([17_496, 1024, 1024, 1072, 1112])
    );
    let (prologue, epilogue) = codes(Fpu, request);
    assert_eq!((prologue.len(), epilogue.len()), (92, 96));
    // -17,496 is BBA8 in sixteen bits.
    assert_eq!(prologue[..12], hex("27BDBBA8 E7B40400 E7B50404"));
    assert_eq!(prologue[48..56], hex("E7BF042C AFB00430"));
    assert_eq!(prologue[80..], hex("AFB7044C AFBE0450 AFBF0454"));
    assert_eq!(
        epilogue[76..],
        hex("8FB7044C 8FBE0450 8FBF0454 03E00008 27BD4458")
    );
}

/// Saved at offset 0, which the yes tells from not saved.
#[test]
fn the_global_pointer_alone_in_a_leaf() {
    let request = Request {
        leaf: true,
        general: GP,
        ..Request::default()
    };
    for device in [Fpu, NoFpu] {
        assert_eq!(frame(device, request), layout_with_gp([8, 0, 0, 0, 8], 0));
        let (prologue, epilogue) = codes(device, request);
        assert_eq!(prologue, hex("27BDFFF8 AFBC0000"));
        assert_eq!(epilogue, hex("8FBC0000 03E00008 27BD0008"));
    }
}

#[test]
fn the_global_pointer_lies_between_23_and_30() {
    let request = Request {
        leaf: true,
        general: 1 << 23 | GP | 1 << 30,
        ..Request::default()
    };
    for device in [Fpu, NoFpu] {
        assert_eq!(frame(device, request), layout_with_gp([16, 0, 0, 0, 16], 4));
        let (prologue, epilogue) = codes(device, request);
        assert_eq!(prologue, hex("27BDFFF0 AFB70000 AFBC0004 AFBE0008"));
        assert_eq!(
            epilogue,
            hex("8FB70000 8FBC0004 8FBE0008 03E00008 27BD0010")
        );
    }
}

/// Not from the start of the general area.
#[test]
fn the_offset_of_the_global_pointer_is_from_sp() {
    let request = Request {
        leaf: false,
        locals: 4,
        outgoing: 17,
        general: 1 << 16 | GP | 1 << 31,
        pairs: 0b10,
    };
    assert_eq!(
        frame(Fpu, request),
        layout_with_gp([56, 24, 24, 32, 48], 36)
    );
    let (prologue, epilogue) = codes(Fpu, request);
    assert_eq!(
        prologue,
        hex("27BDFFC8 E7B60018 E7B7001C AFB00020 AFBC0024 AFBF0028")
    );
    assert_eq!(
        epilogue,
        hex("C7B60018 C7B7001C 8FB00020 8FBC0024 8FBF0028 03E00008 27BD0038")
    );
}

/// The masks of the eleven registers that may be saved.
fn saved_masks() -> impl Iterator<Item = u32> {
    let registers = [16, 17, 18, 19, 20, 21, 22, 23, 28, 30, 31];
    (0..1 << registers.len()).map(move |choice| {
        let chosen = (0..registers.len()).filter(|index| choice >> index & 1 == 1);
        chosen.map(|index| 1 << registers[index]).sum()
    })
}

/// The words of code that begin with these 16 bits, by their index.
fn words_of(code: &[u8], upper: u16) -> Vec<(usize, u32)> {
    code.chunks_exact(4)
        .map(|bytes| u32::from_be_bytes(bytes.try_into().expect("four bytes")))
        .enumerate()
        .filter(|&(_, word)| word >> 16 == u32::from(upper))
        .collect()
}

/// Each lower register that is saved has four bytes below the global pointer.
#[test]
fn the_global_pointer_in_every_mask() {
    for general in saved_masks() {
        let request = Request {
            leaf: true,
            general,
            pairs: 0b101,
            ..Request::default()
        };
        let lower = (general & 0x00FF_0000).count_ones();
        // Two pairs take the 16 bytes below.
        let saved_at = (general & GP != 0).then_some(16 + 4 * lower);
        let layout = frame(Fpu, request);
        assert_eq!(layout.refusal, 0);
        assert_eq!(
            (layout.gp_saved, layout.gp),
            saved_at.map_or((0, 0), |offset| (1, offset)),
            "{general:08X}"
        );

        let (prologue, epilogue) = codes(Fpu, request);
        let index = 4 + lower as usize;
        let stores = saved_at.map(|offset| (1 + index, 0xAFBC_0000 + offset));
        let loads = saved_at.map(|offset| (index, 0x8FBC_0000 + offset));
        assert_eq!(words_of(&prologue, 0xAFBC), Vec::from_iter(stores));
        assert_eq!(words_of(&epilogue, 0x8FBC), Vec::from_iter(loads));
    }
    assert_eq!(saved_masks().count(), 2_048);
}

#[test]
fn an_odd_number_of_registers_is_padded_at_the_top() {
    let request = Request {
        leaf: true,
        locals: 1,
        outgoing: 0,
        general: 1 << 18,
        pairs: 0b10_0001,
    };
    assert_eq!(frame(Fpu, request), layout([32, 0, 0, 16, 24]));
    let expected = hex("27BDFFE0 E7B40000 E7B50004 E7BE0008 E7BF000C AFB20010");
    assert_eq!(codes(Fpu, request).0, expected);
}

/// A refusal of layout, prologue and epilogue, whether or not there is room for
/// code.
fn check_frame_refusal(device: Device, request: Request, number: u32) {
    let expected = Layout {
        refusal: number,
        ..Layout::default()
    };
    assert_eq!(frame(device, request), expected);
    for code in [prologue, epilogue] {
        let mut room = [0xA5; 200];
        assert_eq!(code(device, request, &mut []), refused(number, 0, 0));
        assert_eq!(code(device, request, &mut room), refused(number, 0, 0));
        assert_eq!(room, [0xA5; 200]);
    }
}

#[test]
fn frame_refusals_in_their_order() {
    let leaf = Request {
        leaf: true,
        ..Request::default()
    };
    let all_wrong = Request {
        leaf: false,
        locals: u32::MAX,
        outgoing: u32::MAX,
        general: 1 << 15,
        pairs: 64,
    };
    let pairs_wrong = Request {
        general: 0,
        ..all_wrong
    };
    let unsaved = Request {
        pairs: 0,
        ..pairs_wrong
    };
    let locals_wrong = Request {
        general: 1 << 31,
        ..unsaved
    };
    let outgoing_wrong = Request {
        locals: 16_384,
        ..locals_wrong
    };
    let leaf_calls = Request {
        outgoing: 1,
        ..leaf
    };
    for (request, number) in [
        (all_wrong, 9),
        (pairs_wrong, 9),
        (unsaved, 10),
        (locals_wrong, 11),
        (outgoing_wrong, 12),
        (leaf_calls, 12),
    ] {
        // Only requests that are 9 anyway name pairs, so the device is of no
        // account.
        check_frame_refusal(Fpu, request, number);
        check_frame_refusal(NoFpu, request, number);
    }
}

/// `$28` is admitted, its neighbours aren't, alone or beside it.
#[test]
fn registers_that_no_frame_saves() {
    for bit in (0..16).chain(24..28).chain([29]) {
        for beside in [0, GP, ALL_REGISTERS] {
            for leaf in [true, false] {
                let request = Request {
                    leaf,
                    general: 1 << bit | beside,
                    ..Request::default()
                };
                check_frame_refusal(Fpu, request, 9);
                check_frame_refusal(NoFpu, request, 9);
            }
        }
    }
}

/// Each refusal of a request that names `$28`: the answer says no and 0.
#[test]
fn a_refused_frame_saves_no_global_pointer() {
    let caller = Request {
        general: GP | 1 << 31,
        ..Request::default()
    };
    let leaf = Request {
        leaf: true,
        general: GP,
        ..Request::default()
    };
    for device in [Fpu, NoFpu] {
        for request in [caller, leaf] {
            assert_eq!(frame(device, request).gp_saved, 1);
        }
        for (request, number) in [
            (
                Request {
                    general: GP | 1 << 29,
                    ..leaf
                },
                9,
            ),
            (Request { pairs: 64, ..leaf }, 9),
            (
                Request {
                    leaf: false,
                    ..leaf
                },
                10,
            ),
            (
                Request {
                    locals: 16_385,
                    ..caller
                },
                11,
            ),
            (
                Request {
                    outgoing: 1_025,
                    ..caller
                },
                12,
            ),
            (
                Request {
                    outgoing: 1,
                    ..leaf
                },
                12,
            ),
        ] {
            check_frame_refusal(device, request, number);
        }
    }
    check_frame_refusal(NoFpu, Request { pairs: 1, ..leaf }, 14);
}

#[test]
fn pairs_without_a_unit_are_refused_behind_9_and_before_10() {
    // Refused 10, 11 and 12 as well, and 13 where there is no room.
    let all_pairs = Request {
        leaf: false,
        locals: u32::MAX,
        outgoing: u32::MAX,
        general: 0,
        pairs: 63,
    };
    let one_pair = Request {
        pairs: 1,
        ..all_pairs
    };
    let beyond_the_pairs = Request {
        pairs: 64,
        ..all_pairs
    };
    let far_beyond_the_pairs = Request {
        pairs: u32::MAX,
        ..all_pairs
    };
    let wrong_register = Request {
        general: 1 << 15,
        ..all_pairs
    };
    let nothing_else_wrong = Request {
        pairs: 63,
        ..EXAMPLE
    };
    for (request, with_unit, without_unit) in [
        (all_pairs, 10, 14),
        (one_pair, 10, 14),
        (beyond_the_pairs, 9, 9),
        (far_beyond_the_pairs, 9, 9),
        (wrong_register, 9, 9),
    ] {
        check_frame_refusal(Fpu, request, with_unit);
        check_frame_refusal(NoFpu, request, without_unit);
    }
    assert_eq!(frame(Fpu, nothing_else_wrong).refusal, 0);
    check_frame_refusal(NoFpu, nothing_else_wrong, 14);
}
