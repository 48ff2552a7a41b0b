//! The crate with the library: every refusal by its name, and the sizes of
//! buffers that are always enough.

use o32::{
    raw, Device, Placement, Plan, Refusal, Request, Verdict, BODIES_MAX, CHECKED_MAX, EPILOGUE_MAX,
    IMAGE_MAX, LIST_MAX, PLAN_WORDS, PROLOGUE_MAX, SIGNATURE_MAX,
};

const DEVICES: [Device; 2] = [Device::Fpu, Device::NoFpu];

/// `$16` to `$23`, `$28`, `$30` and `$31`.
const ALL_REGISTERS: u32 = 0xD0FF_0000;
const GLOBAL_POINTER: u32 = 1 << 28;
const RETURN_ADDRESS: u32 = 1 << 31;
const WORD: [u8; 5] = [0x05, 0, 0, 0, 9];

#[test]
fn the_library_has_the_version_of_the_crate() {
    assert_eq!(o32::version(), o32::VERSION);
}

/// How a list is refused with every byte of room that an image may need, and
/// whatever the plan.
fn refusal_of_list(list: &[u8]) -> Refusal {
    let refusal = o32::write(Device::Fpu, list, &mut [0; IMAGE_MAX]).unwrap_err();
    let mut signature = [0; SIGNATURE_MAX];
    assert_eq!(o32::signature(list, &mut signature), Err(refusal));
    assert_eq!(
        o32::fill(Device::Fpu, &Plan::default(), list, &mut []),
        Err(refusal)
    );
    refusal
}

/// How a request is refused with every byte of room that code may need.
fn refusal_of_request(device: Device, request: Request) -> Refusal {
    let refusal = o32::layout(device, request).unwrap_err();
    let mut code = [0; EPILOGUE_MAX];
    assert_eq!(o32::prologue(device, request, &mut code), Err(refusal));
    assert_eq!(o32::epilogue(device, request, &mut code), Err(refusal));
    // Before the code is looked at, also at its length.
    assert_eq!(o32::check_prologue(device, request, &code), Err(refusal));
    assert_eq!(o32::check_prologue(device, request, &[0; 3]), Err(refusal));
    refusal
}

#[track_caller]
fn assert_parts(refusal: Refusal, number: u32, place: Option<usize>, argument: Option<usize>) {
    assert_eq!(
        (refusal.number(), refusal.place(), refusal.argument()),
        (number, place, argument)
    );
}

#[test]
fn an_unknown_kind() {
    let refusal = refusal_of_list(&[&WORD[..], &[0x09]].concat());
    assert_eq!(refusal, Refusal::UnknownKind { place: 5 });
    assert_parts(refusal, 1, Some(5), None);
    assert_eq!(refusal.to_string(), "unknown kind, at byte 5 (refusal 1)");
}

#[test]
fn a_misplaced_marker() {
    let refusal = refusal_of_list(&[0x0A]);
    assert_eq!(refusal, Refusal::MisplacedMarker { place: 0 });
    assert_parts(refusal, 2, Some(0), None);
    assert_eq!(
        refusal.to_string(),
        "ellipsis marker misplaced or repeated, at byte 0 (refusal 2)"
    );
}

#[test]
fn a_misplaced_return_pointer() {
    let refusal = refusal_of_list(&[&WORD[..], &[0x0A, 0x0B, 0, 0, 0, 0]].concat());
    assert_eq!(
        refusal,
        Refusal::MisplacedReturnPointer {
            place: 6,
            argument: 2
        }
    );
    assert_parts(refusal, 2, Some(6), Some(2));
    assert_eq!(
        refusal.to_string(),
        "return pointer misplaced or repeated, at byte 6, argument 2 (refusal 2)"
    );
}

#[test]
fn too_many_arguments() {
    let refusal = refusal_of_list(&WORD.repeat(33));
    assert_eq!(
        refusal,
        Refusal::TooManyArguments {
            place: 160,
            argument: 33
        }
    );
    assert_parts(refusal, 3, Some(160), Some(33));
}

#[test]
fn a_body_that_is_cut_off() {
    let refusal = refusal_of_list(&[0x05, 0]);
    assert_eq!(
        refusal,
        Refusal::BodyCutOff {
            place: 0,
            argument: 1
        }
    );
    assert_parts(refusal, 4, Some(0), Some(1));
}

#[test]
fn an_argument_beyond_the_limit() {
    let mut list = vec![0xFF; 1 + 512];
    list.extend_from_within(..);
    list.extend(WORD);
    let refusal = refusal_of_list(&list);
    assert_eq!(
        refusal,
        Refusal::BeyondLimit {
            place: 1026,
            argument: 3
        }
    );
    assert_parts(refusal, 5, Some(1026), Some(3));
}

#[test]
fn an_image_of_another_length() {
    let refusal = o32::read(Device::Fpu, &[], &[0; 56], &mut []).unwrap_err();
    assert_eq!(refusal, Refusal::ImageLength);
    assert_parts(refusal, 6, None, None);
    assert_eq!(
        refusal.to_string(),
        "the image's length is not the one the signature asks for (refusal 6)"
    );
}

#[test]
fn an_output_buffer_that_is_too_short() {
    let refusal = o32::write(Device::Fpu, &[], &mut [0; 47]).unwrap_err();
    assert_eq!(refusal, Refusal::ShortOutput);
    assert_parts(refusal, 7, None, None);
}

#[test]
fn a_word_that_is_no_promotion() {
    let mut image = [0; 48];
    image[7] = 0x80;
    let refusal = o32::read(Device::Fpu, &[0x05, 0x0A, 0x01], &image, &mut [0; 8]).unwrap_err();
    assert_eq!(
        refusal,
        Refusal::NoPromotion {
            place: 2,
            argument: 2
        }
    );
    assert_parts(refusal, 8, Some(2), Some(2));
    assert_eq!(
        refusal.to_string(),
        "the image's word for this kind is no promoted byte or halfword, \
         at byte 2, argument 2 (refusal 8)"
    );
}

#[test]
fn a_signature_without_a_marker() {
    // Refused before the image is looked at; no image has length 0.
    let refusal = o32::walk(Device::Fpu, &[0x05, 0x05], &[], &mut []).unwrap_err();
    assert_eq!(refusal, Refusal::NoMarker);
    assert_parts(refusal, 15, None, None);
    assert_eq!(
        refusal.to_string(),
        "the signature has no ellipsis marker (refusal 15)"
    );
}

/// The other refusals of a walk are those of the reader.
#[test]
fn walks_that_are_refused() {
    let mut image = [0; 48];
    image[2] = 1;
    for (signature, refusal) in [
        (&[0x05, 0x0A, 0x09][..], Refusal::UnknownKind { place: 2 }),
        (&[0x05, 0x0A, 0x53], Refusal::ImageLength),
        (&[0x05, 0x0A, 0x08, 0x05], Refusal::ImageLength),
        (&[0x05, 0x0A, 0x08], Refusal::ShortOutput),
        (
            &[0x01, 0x0A, 0x05],
            Refusal::NoPromotion {
                place: 0,
                argument: 1,
            },
        ),
    ] {
        for device in DEVICES {
            let mut bodies = [0xA5; 4];
            assert_eq!(
                o32::walk(device, signature, &image, &mut bodies),
                Err(refusal)
            );
            assert_eq!(bodies, [0xA5; 4]);
        }
    }
}

/// A double, a single, a word, a marker and a signed byte.
const MIXED: [u8; 5] = [0x08, 0x07, 0x05, 0x0A, 0x01];

/// A list of these kinds.
fn mixed_list(number: u8) -> Vec<u8> {
    let records: [&[u8]; 5] = [
        &[0x08, 0x3F, 0xF0, 0, 0, 0, 0, 0, number],
        &[0x07, 0x3F, 0x80, 0, number],
        &[0x05, 0, 0, 0, number],
        &[0x0A],
        &[0x01, number],
    ];
    records.concat()
}

fn placement(kind: u32, offset: u32, float_register: u32) -> Placement {
    Placement {
        kind,
        offset,
        float_register,
    }
}

#[test]
fn a_plan_has_a_placement_for_each_argument() {
    for (device, registers) in [(Device::Fpu, [12, 14]), (Device::NoFpu, [0, 0])] {
        let plan = o32::make_plan(device, &MIXED).unwrap();
        let expected = [
            placement(0x08, 0, registers[0]),
            placement(0x07, 8, registers[1]),
            placement(0x05, 12, 0),
            placement(0x01, 16, 0),
        ];
        assert_eq!(plan.placements[..4], expected);
        assert_eq!(plan.placements[4..], [Placement::default(); 28]);
        assert_eq!((plan.count, plan.area), (4, 24));
    }
}

/// The names of a plan's numbers stand for C's words in their order.
#[test]
fn a_plan_has_the_order_of_its_words() {
    let signature = signature_of_longest();
    let plan = o32::make_plan(Device::Fpu, &signature).unwrap();
    let mut words = [0xA5A5_A5A5; PLAN_WORDS + 1];
    let answer = raw::make_plan(Device::Fpu, &signature, &mut words);
    assert_eq!((answer.refusal, answer.length as usize), (0, PLAN_WORDS));
    let named: Vec<u32> = plan
        .placements
        .iter()
        .flat_map(|entry| [entry.kind, entry.offset, entry.float_register])
        .chain([plan.count, plan.area])
        .collect();
    assert_eq!(words[..PLAN_WORDS], named);
    assert_eq!(words[PLAN_WORDS], 0xA5A5_A5A5);
    assert_eq!((plan.count, plan.area), (32, 1024));
}

#[test]
fn one_plan_gives_all_images_of_its_signature() {
    for device in DEVICES {
        let plan = o32::make_plan(device, &MIXED).unwrap();
        for number in 0..=0xFF {
            let list = mixed_list(number);
            let (mut filled, mut written) = ([0xA5; IMAGE_MAX], [0xA5; IMAGE_MAX]);
            assert_eq!(
                o32::fill(device, &plan, &list, &mut filled),
                o32::write(device, &list, &mut written)
            );
            assert_eq!(filled, written);
        }
    }
}

#[test]
fn a_plan_that_differs() {
    let list = mixed_list(1);
    let plan = o32::make_plan(Device::Fpu, &MIXED).unwrap();
    let (mut count, mut area, mut past) = (plan, plan, plan);
    count.count += 1;
    area.area += 8;
    past.placements[31].kind = 0x05;
    let other_device = o32::make_plan(Device::NoFpu, &MIXED).unwrap();
    for changed in [count, area, past, other_device, Plan::default()] {
        // It is refused before the room is looked at.
        let mut image = [0xA5; 16];
        let refusal = o32::fill(Device::Fpu, &changed, &list, &mut image).unwrap_err();
        assert_eq!(refusal, Refusal::PlanDiffers);
        assert_parts(refusal, 20, None, None);
        assert_eq!(image, [0xA5; 16]);
        assert_eq!(
            refusal.to_string(),
            "the plan is not the one of the list's signature on this device (refusal 20)"
        );
    }
}

/// A marker is no entry, so a plan may serve with one and without.
#[test]
fn a_plan_of_words_serves_with_a_marker_and_on_both_devices() {
    let plan = o32::make_plan(Device::Fpu, &[0x05, 0x05]).unwrap();
    let list = [&WORD[..], &[0x0A], &WORD].concat();
    for device in DEVICES {
        let mut buffer = [0; 48];
        let image = o32::fill(device, &plan, &list, &mut buffer).unwrap();
        assert_eq!(image[..8], [0, 0, 0, 9, 0, 0, 0, 9]);
    }
}

/// Places are offsets in the signature, and there are no bodies to cut off.
#[test]
fn plans_that_are_refused() {
    for (signature, refusal) in [
        (&[0x05, 0x09][..], Refusal::UnknownKind { place: 1 }),
        (&[0x0A], Refusal::MisplacedMarker { place: 0 }),
        (
            &[0x05, 0x0A, 0x0B],
            Refusal::MisplacedReturnPointer {
                place: 2,
                argument: 2,
            },
        ),
        (
            &[0x05; 33],
            Refusal::TooManyArguments {
                place: 32,
                argument: 33,
            },
        ),
        (
            &[0xFF, 0xFF, 0x05],
            Refusal::BeyondLimit {
                place: 2,
                argument: 3,
            },
        ),
    ] {
        for device in DEVICES {
            assert_eq!(o32::make_plan(device, signature), Err(refusal));
        }
    }
    let mut words = [0xA5A5_A5A5; PLAN_WORDS - 1];
    let answer = raw::make_plan(Device::Fpu, &[0x05], &mut words);
    assert_eq!((answer.refusal, answer.length), (7, 0));
    assert_eq!(words, [0xA5A5_A5A5; PLAN_WORDS - 1]);
}

#[test]
fn a_signature_leaves_the_bytes_behind_it() {
    let mut buffer = [0xA5; 6];
    assert_eq!(o32::signature(&mixed_list(1), &mut buffer), Ok(&MIXED[..]));
    assert_eq!(buffer[5], 0xA5);
}

fn refusal_of_description(description: &[u8]) -> Refusal {
    o32::describe(description).unwrap_err()
}

#[test]
fn a_described_structure() {
    let structure = o32::describe(&[0x10, 0x01, 0x12, 0x03, 0x05, 0x11]).unwrap();
    assert_eq!(
        (structure.size, structure.alignment, structure.kind),
        (16, 4, 0x4F)
    );
    // The alignment is the natural one, not that of the kind.
    let structure = o32::describe(&[0x10, 0x01, 0x11]).unwrap();
    assert_eq!(
        (structure.size, structure.alignment, structure.kind),
        (1, 1, 0x40)
    );
    let structure = o32::describe(&[0x10, 0x12, 0x40, 0x08, 0x11]).unwrap();
    assert_eq!(
        (structure.size, structure.alignment, structure.kind),
        (512, 8, 0xFF)
    );
}

/// Unknown bytes, misplaced ones, a count of 0, and too few or too many bytes.
#[test]
fn a_malformed_description() {
    for (description, place) in [
        (&[][..], 0),
        (&[0x05], 0),
        (&[0x10, 0x09], 1),
        (&[0x10, 0x12, 0x00, 0x05, 0x11], 2),
        (&[0x10, 0x12, 0x02, 0x11], 3),
        (&[0x10, 0x05], 2),
        (&[0x10, 0x05, 0x11, 0x11], 3),
    ] {
        let refusal = refusal_of_description(description);
        assert_eq!(refusal, Refusal::MalformedDescription { place });
        assert_parts(refusal, 16, Some(place), None);
    }
    assert_eq!(
        refusal_of_description(&[0x10, 0x05]).to_string(),
        "the description has a byte that can't stand there, or ends too early, \
         at byte 2 (refusal 16)"
    );
}

#[test]
fn a_structure_that_is_too_deep() {
    let refusal = refusal_of_description(&[0x10; 7]);
    assert_eq!(refusal, Refusal::TooDeep { place: 6 });
    assert_parts(refusal, 17, Some(6), None);
    assert_eq!(
        refusal.to_string(),
        "structures are nested more than 6 deep, at byte 6 (refusal 17)"
    );
}

#[test]
fn a_member_beyond_the_limit() {
    let refusal = refusal_of_description(&[0x10, 0x12, 0xFF, 0x05, 0x11]);
    assert_eq!(refusal, Refusal::MemberBeyondLimit { place: 3 });
    assert_parts(refusal, 18, Some(3), None);
    assert_eq!(
        refusal.to_string(),
        "the member ends above 512 in its structure, at byte 3 (refusal 18)"
    );
}

#[test]
fn an_empty_structure() {
    let refusal = refusal_of_description(&[0x10, 0x11]);
    assert_eq!(refusal, Refusal::EmptyStructure { place: 1 });
    assert_parts(refusal, 19, Some(1), None);
    assert_eq!(
        refusal.to_string(),
        "the structure is closed without a member, at byte 1 (refusal 19)"
    );
}

#[test]
fn a_size_without_a_kind() {
    let refusal = refusal_of_description(&[0x10, 0x12, 0x41, 0x01, 0x11]);
    assert_eq!(refusal, Refusal::NoKind);
    assert_parts(refusal, 19, None, None);
    assert_eq!(
        refusal.to_string(),
        "no kind has the structure's size and alignment (refusal 19)"
    );
}

/// Every described size that has a kind is that of the kind's body.
#[test]
fn the_kind_of_a_structure_has_its_size() {
    let mut image = [0; IMAGE_MAX];
    for scalar in [0x01, 0x03, 0x05, 0x06] {
        for count in 1..=255 {
            let Ok(structure) = o32::describe(&[0x10, 0x12, count, scalar, 0x11]) else {
                continue;
            };
            let mut list = vec![0xFF; 1 + structure.size as usize];
            list[0] = structure.kind;
            assert!(o32::write(Device::Fpu, &list, &mut image).is_ok());
            list.pop();
            assert_eq!(
                o32::write(Device::Fpu, &list, &mut image),
                Err(Refusal::BodyCutOff {
                    place: 0,
                    argument: 1
                })
            );
        }
    }
}

#[test]
fn requests_that_are_refused() {
    let leaf = Request {
        leaf: true,
        ..Request::default()
    };
    let caller = Request {
        general: RETURN_ADDRESS,
        ..Request::default()
    };
    let cases = [
        (9, Refusal::Masks, Request { pairs: 64, ..leaf }),
        (10, Refusal::ReturnAddressNotSaved, Request::default()),
        (
            11,
            Refusal::Locals,
            Request {
                locals: 16_385,
                ..leaf
            },
        ),
        (
            12,
            Refusal::Outgoing,
            Request {
                outgoing: 1_025,
                ..caller
            },
        ),
        (
            12,
            Refusal::Outgoing,
            Request {
                outgoing: 1,
                ..leaf
            },
        ),
    ];
    for (number, refusal, request) in cases {
        assert_eq!(refusal_of_request(Device::Fpu, request), refusal);
        assert_parts(refusal, number, None, None);
    }
}

/// Each register outside those that may be saved, beside all of them.
#[test]
fn registers_that_no_frame_saves() {
    for register in (0..32).filter(|register| ALL_REGISTERS >> register & 1 == 0) {
        let request = Request {
            general: ALL_REGISTERS | 1 << register,
            ..Request::default()
        };
        for device in DEVICES {
            let refusal = refusal_of_request(device, request);
            assert_eq!(refusal, Refusal::Masks);
            assert_eq!(
                refusal.to_string(),
                "the general mask names a register outside $16 to $23, $28, $30 and $31, \
                 or the pair mask is above 63 (refusal 9)"
            );
            let layout = raw::frame(device, request.into());
            let expected = raw::Layout {
                refusal: 9,
                ..raw::Layout::default()
            };
            assert_eq!(layout, expected);
        }
    }
}

#[test]
fn pairs_without_a_unit() {
    let request = Request {
        leaf: true,
        pairs: 1,
        ..Request::default()
    };
    let refusal = refusal_of_request(Device::NoFpu, request);
    assert_eq!(refusal, Refusal::PairsWithoutUnit);
    assert_parts(refusal, 14, None, None);
    assert!(o32::layout(Device::Fpu, request).is_ok());
}

/// 32 arguments and a marker, whose bodies fill all 1,024 bytes.
fn longest_list() -> Vec<u8> {
    let mut list = vec![0xFF; 1 + 512];
    list.push(0xF0);
    list.extend([0xAB; 392]);
    list.extend(WORD.repeat(30));
    list.push(0x0A);
    list
}

fn signature_of_longest() -> Vec<u8> {
    [&[0xFF, 0xF0][..], &[0x05; 30], &[0x0A]].concat()
}

#[test]
fn the_longest_list_fits_and_no_shorter_buffer_does() {
    let list = longest_list();
    assert_eq!(list.len(), LIST_MAX);
    let mut buffer = [0; IMAGE_MAX];
    let image = o32::write(Device::Fpu, &list, &mut buffer).unwrap();
    assert_eq!(image.len(), IMAGE_MAX);
    assert_eq!(
        o32::write(Device::Fpu, &list, &mut [0; IMAGE_MAX - 1]),
        Err(Refusal::ShortOutput)
    );

    let signature = signature_of_longest();
    let plan = o32::make_plan(Device::Fpu, &signature).unwrap();
    assert_eq!(
        o32::fill(Device::Fpu, &plan, &list, &mut [0; IMAGE_MAX]),
        Ok(image)
    );
    assert_eq!(
        o32::fill(Device::Fpu, &plan, &list, &mut [0; IMAGE_MAX - 1]),
        Err(Refusal::ShortOutput)
    );
    assert_eq!(
        o32::read(Device::Fpu, &signature, image, &mut [0; LIST_MAX]),
        Ok(&list[..])
    );
    assert_eq!(
        o32::read(Device::Fpu, &signature, image, &mut [0; LIST_MAX - 1]),
        Err(Refusal::ShortOutput)
    );
}

#[test]
fn the_longest_signature_fits_and_no_shorter_buffer_does() {
    let list = longest_list();
    let signature = signature_of_longest();
    assert_eq!(signature.len(), SIGNATURE_MAX);
    assert_eq!(
        o32::signature(&list, &mut [0; SIGNATURE_MAX]),
        Ok(&signature[..])
    );
    assert_eq!(
        o32::signature(&list, &mut [0; SIGNATURE_MAX - 1]),
        Err(Refusal::ShortOutput)
    );
}

/// A word, the marker, then structures of 320, 320, 320 and 60 bytes.
#[test]
fn the_longest_bodies_fit_and_no_shorter_buffer_does() {
    let signature = [0x05, 0x0A, 0xBF, 0xBF, 0xBF, 0x7B];
    let image: Vec<u8> = (0..IMAGE_MAX).map(|at| at as u8).collect();
    // The first words behind the named one are in registers, the others lie
    // behind the floating registers and the homes.
    let expected = [&image[4..16], &image[48..]].concat();
    assert_eq!(expected.len(), BODIES_MAX);
    for device in DEVICES {
        assert_eq!(
            o32::walk(device, &signature, &image, &mut [0; BODIES_MAX]),
            Ok(&expected[..])
        );
        assert_eq!(
            o32::walk(device, &signature, &image, &mut [0; BODIES_MAX - 1]),
            Err(Refusal::ShortOutput)
        );
    }
}

#[test]
fn a_walk_leaves_the_bytes_behind_its_result() {
    let mut image = [0xEE; 48];
    image[4..8].copy_from_slice(&[0xFF, 0xFF, 0xFF, 0x80]);
    let mut bodies = [0xA5; 3];
    let signature = [0x07, 0x0A, 0x01];
    assert_eq!(
        o32::walk(Device::Fpu, &signature, &image, &mut bodies),
        Ok(&[0x80][..])
    );
    assert_eq!(bodies, [0x80, 0xA5, 0xA5]);
    // A marker that comes last has nothing behind it.
    assert_eq!(
        o32::walk(Device::Fpu, &signature[..2], &image, &mut bodies),
        Ok(&[][..])
    );
    assert_eq!(bodies, [0x80, 0xA5, 0xA5]);
}

#[test]
fn the_longest_code_fits_and_no_shorter_buffer_does() {
    assert_eq!((PROLOGUE_MAX, EPILOGUE_MAX), (96, 100));
    let request = Request {
        locals: 16_384,
        outgoing: 1_024,
        general: ALL_REGISTERS,
        pairs: 63,
        ..Request::default()
    };
    let layout = o32::layout(Device::Fpu, request).unwrap();
    assert_eq!((layout.frame, layout.gp), (17_504, Some(1104)));

    let mut code = [0; PROLOGUE_MAX];
    let prologue = o32::prologue(Device::Fpu, request, &mut code).unwrap();
    assert_eq!(prologue.len(), PROLOGUE_MAX);
    let short = o32::prologue(Device::Fpu, request, &mut code[1..]).unwrap_err();
    assert_eq!(short, Refusal::ShortCode);
    assert_parts(short, 13, None, None);

    let mut code = [0; EPILOGUE_MAX];
    let epilogue = o32::epilogue(Device::Fpu, request, &mut code).unwrap();
    assert_eq!(epilogue.len(), EPILOGUE_MAX);
    assert_eq!(
        o32::epilogue(Device::Fpu, request, &mut code[1..]),
        Err(Refusal::ShortCode)
    );
}

/// Not saved, saved at offset 0, and between `$23` and `$30`.
#[test]
fn the_global_pointer_in_a_layout() {
    for (general, frame, gp) in [
        (0, 0, None),
        (ALL_REGISTERS & !GLOBAL_POINTER, 40, None),
        (GLOBAL_POINTER, 8, Some(0)),
        (1 << 23 | GLOBAL_POINTER | 1 << 30, 16, Some(4)),
        (ALL_REGISTERS, 48, Some(32)),
    ] {
        let request = Request {
            leaf: true,
            general,
            ..Request::default()
        };
        for device in DEVICES {
            let layout = o32::layout(device, request).unwrap();
            assert_eq!((layout.frame, layout.gp), (frame, gp));
        }
    }
}

#[test]
fn the_global_pointer_in_the_code() {
    let request = Request {
        leaf: true,
        general: 1 << 23 | GLOBAL_POINTER | 1 << 30,
        ..Request::default()
    };
    let prologue = [0x27BD_FFF0, 0xAFB7_0000, 0xAFBC_0004, 0xAFBE_0008];
    let epilogue = [
        0x8FB7_0000,
        0x8FBC_0004,
        0x8FBE_0008,
        0x03E0_0008,
        0x27BD_0010_u32,
    ];
    for device in DEVICES {
        assert_eq!(
            o32::prologue(device, request, &mut [0; PROLOGUE_MAX]),
            Ok(&prologue.map(u32::to_be_bytes).concat()[..])
        );
        assert_eq!(
            o32::epilogue(device, request, &mut [0; EPILOGUE_MAX]),
            Ok(&epilogue.map(u32::to_be_bytes).concat()[..])
        );
    }
}

/// All parts of a layout, and the rest of a buffer.
#[test]
fn a_layout_and_the_bytes_behind_a_result() {
    let request = Request {
        locals: 4,
        outgoing: 24,
        general: 1 << 16 | RETURN_ADDRESS,
        pairs: 1,
        ..Request::default()
    };
    let layout = o32::layout(Device::Fpu, request).unwrap();
    assert_eq!((layout.frame, layout.build), (48, 24));
    assert_eq!(
        (layout.floating, layout.general, layout.locals),
        (24, 32, 40)
    );
    assert_eq!(layout.gp, None);

    let mut buffer = [0xA5; 50];
    assert_eq!(o32::write(Device::Fpu, &[], &mut buffer).unwrap(), [0; 48]);
    assert_eq!(buffer[48..], [0xA5; 2]);
}

/// A routine that calls others and saves `$f20`, `$f21`, `$16`, `$28` and `$31`,
/// with 4 bytes of locals: F = 48.
const CHECKED: Request = Request {
    leaf: false,
    locals: 4,
    outgoing: 0,
    general: 1 << 16 | GLOBAL_POINTER | RETURN_ADDRESS,
    pairs: 1,
};

const CHECKED_WORDS: [u32; 6] = [
    0x27BD_FFD0,
    0xE7B4_0010,
    0xE7B5_0014,
    0xAFB0_0018,
    0xAFBC_001C,
    0xAFBF_0020,
];

/// What is said of words as the prologue of that routine.
#[track_caller]
fn verdict_on(words: &[u32]) -> Verdict {
    let code: Vec<u8> = words.iter().flat_map(|word| word.to_be_bytes()).collect();
    o32::check_prologue(Device::Fpu, CHECKED, &code).unwrap()
}

#[test]
fn a_prologue_in_any_order_and_with_zeros() {
    let [addiu, stores @ ..] = CHECKED_WORDS;
    assert_eq!(verdict_on(&CHECKED_WORDS), Verdict::Accepted);
    for turn in 0..stores.len() {
        let mut turned = stores;
        turned.rotate_left(turn);
        let words = [&[0, addiu][..], &turned[..2], &[0, 0], &turned[2..]].concat();
        assert!(verdict_on(&words).is_accepted());
        turned.reverse();
        assert!(verdict_on(&[&[addiu][..], &turned].concat()).is_accepted());
    }
}

/// Each store left out, and each doubled.
#[test]
fn a_register_that_is_not_stored_once() {
    let names = [
        Verdict::Floating(20),
        Verdict::Floating(21),
        Verdict::General(16),
        Verdict::General(28),
        Verdict::General(31),
    ];
    for (name, index) in names.into_iter().zip(1..) {
        let mut words = CHECKED_WORDS.to_vec();
        words.push(CHECKED_WORDS[index]);
        assert_eq!(verdict_on(&words), name);
        words.retain(|&word| word != CHECKED_WORDS[index]);
        assert_eq!(verdict_on(&words), name);
        assert!(!name.is_accepted());
    }
    // A general register is named before a floating one.
    assert_eq!(verdict_on(&CHECKED_WORDS[..1]), Verdict::General(16));
    assert_eq!(names.map(Verdict::number), [52, 53, 16, 28, 31]);
}

#[test]
fn other_words_than_those_of_a_prologue() {
    let [addiu, stores @ ..] = CHECKED_WORDS;
    for words in [
        &[][..],
        &stores,
        &[&stores[..], &[addiu]].concat(),
        &[&[addiu, addiu][..], &stores].concat(),
        &[&[addiu][..], &stores, &[0x0200_2021]].concat(),
        // `$31` is missing as well, and stored at another place.
        &[&[addiu][..], &stores[..4], &[0xAFBF_0024]].concat(),
    ] {
        let verdict = verdict_on(words);
        assert_eq!((verdict, verdict.number()), (Verdict::OtherWords, 255));
        assert_eq!(
            verdict.to_string(),
            "other words than the request's, or no addiu once and first (verdict 255)"
        );
    }
    // One bit of each word flipped.
    for index in 0..CHECKED_WORDS.len() {
        for bit in 0..32 {
            let mut words = CHECKED_WORDS;
            words[index] ^= 1 << bit;
            assert_eq!(verdict_on(&words), Verdict::OtherWords);
        }
    }
}

/// What the library writes for a frame is a prologue for it.
#[test]
fn the_own_prologue_is_accepted() {
    for (device, pairs) in [(Device::Fpu, 63), (Device::NoFpu, 0)] {
        for leaf in [false, true] {
            let request = Request {
                leaf,
                locals: 16_384,
                general: ALL_REGISTERS,
                pairs,
                ..Request::default()
            };
            let mut buffer = [0; CHECKED_MAX];
            let prologue = o32::prologue(device, request, &mut buffer).unwrap();
            assert_eq!(
                o32::check_prologue(device, request, prologue),
                Ok(Verdict::Accepted)
            );
            // With no-operations behind it, up to the most that is looked at.
            assert_eq!(
                o32::check_prologue(device, request, &buffer),
                Ok(Verdict::Accepted)
            );
            let verdict = o32::check_prologue(device, request, &buffer[4..]);
            assert_eq!(verdict, Ok(Verdict::OtherWords));
        }
    }
}

/// A frame of no bytes has no `addiu`, not even of 0.
#[test]
fn a_prologue_of_no_frame() {
    let request = Request {
        leaf: true,
        ..Request::default()
    };
    let addiu = [0x27, 0xBD, 0, 0];
    for (code, verdict) in [
        (&[][..], Verdict::Accepted),
        (&[0; CHECKED_MAX], Verdict::Accepted),
        (&addiu, Verdict::OtherWords),
    ] {
        for device in DEVICES {
            assert_eq!(o32::check_prologue(device, request, code), Ok(verdict));
        }
    }
}

#[test]
fn a_length_that_code_does_not_have() {
    assert_eq!(CHECKED_MAX, 256);
    let code = [0; CHECKED_MAX + 5];
    for length in 0..code.len() {
        let request = Request {
            leaf: true,
            ..Request::default()
        };
        let answer = o32::check_prologue(Device::Fpu, request, &code[..length]);
        if length % 4 == 0 && length <= CHECKED_MAX {
            assert_eq!(answer, Ok(Verdict::Accepted));
        } else {
            assert_eq!(answer, Err(Refusal::CodeLength));
        }
        let raw = raw::check_prologue(Device::Fpu, request.into(), &code[..length]);
        let refusal = answer.err().map_or(0, |refusal| refusal.number());
        assert_eq!((raw.refusal, raw.place, raw.verdict), (refusal, 0, 0));
    }
    assert_parts(Refusal::CodeLength, 21, None, None);
    assert_eq!(
        Refusal::CodeLength.to_string(),
        "the code's length is no multiple of 4, or above 256 bytes (refusal 21)"
    );
}
