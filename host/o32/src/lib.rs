//! Call images and frames of the MIPS O32 calling convention.
//!
//! A safe interface to a library whose functions are proved to do what their
//! contracts say, for every input. [`make_plan`] says where each argument of a
//! signature lies, and [`fill`] turns a list of such arguments into a call image
//! by that plan: the contents of the argument registers and of the stack's
//! argument area at the moment of the call. [`write()`] makes the image of a
//! list that is sent once, without a plan, and [`read()`] reads an image back.
//! [`walk`] takes the arguments behind an ellipsis from an image, as the
//! called routine does. [`layout`] lays out a routine's stack frame;
//! [`prologue`] and [`epilogue`] write the instructions that set it up and take
//! it down, and [`check_prologue`] says whether instructions of another compiler
//! set it up likewise. [`describe`] gives the size, the alignment and the kind
//! of a structure from a description of its members.
//!
//! Any bytes, numbers and buffer lengths may be given: what can't be done is
//! refused with its [`Refusal`], and then the buffer keeps every byte. On
//! success nothing of the buffer changes but the bytes that are given back.
//!
//! ```
//! use o32::{Device, Refusal, IMAGE_MAX, LIST_MAX};
//!
//! fn main() -> Result<(), Refusal> {
//!     // A word, and a structure of six bytes: one plan for all such calls.
//!     let signature = [0x05, 0x45];
//!     let plan = o32::make_plan(Device::Fpu, &signature)?;
//!     for number in 0..10 {
//!         let list = [0x05, 0, 0, 0, number, 0x45, 1, 2, 3, 4, 5, 6];
//!         let mut buffer = [0; IMAGE_MAX];
//!         let image = o32::fill(Device::Fpu, &plan, &list, &mut buffer)?;
//!         assert_eq!(image.len(), 48);
//!         assert_eq!(image[0..4], [0, 0, 0, number]); // $4
//!         assert_eq!(image[4..12], [1, 2, 3, 4, 5, 6, 0, 0]); // $5 and $6
//!
//!         let mut buffer = [0; LIST_MAX];
//!         let reading = o32::read(Device::Fpu, &signature, image, &mut buffer)?;
//!         assert_eq!(reading, list);
//!     }
//!     Ok(())
//! }
//! ```
//!
//! # Lists and their kinds
//!
//! A list is records end to end. A record is one byte of kind and a body, whose
//! length the kind fixes. Numbers are big-endian, kinds in hexadecimal here.
//!
//! | kind | argument | body bytes | alignment |
//! |---|---|---:|---:|
//! | 01 | signed byte | 1 | 4 |
//! | 02 | unsigned byte | 1 | 4 |
//! | 03 | signed halfword | 2 | 4 |
//! | 04 | unsigned halfword | 2 | 4 |
//! | 05 | word or pointer | 4 | 4 |
//! | 06 | 64-bit integer | 8 | 8 |
//! | 07 | single-precision float, as its bits | 4 | 4 |
//! | 08 | double-precision float, as its bits | 8 | 8 |
//! | 0A | ellipsis marker, which is no argument | 0 | |
//! | 0B | pointer for a returned structure | 4 | 4 |
//! | 40 to 7F | structure of kind - 3F bytes | 1 to 64 | 4 |
//! | 80 to BF | structure of 64 + 4 x (kind - 7F) bytes | 68 to 320 | 4 |
//! | C0 to FF | structure of 8 x (kind - BF) bytes | 8 to 512 | 8 |
//!
//! Every other kind is unknown. A list may be empty and has at most 32
//! arguments; a return pointer counts as one, the marker doesn't. A return
//! pointer stands first or not at all. The marker stands at most once, behind
//! at least one argument that is no return pointer, and may come last. A
//! signature is the kind bytes of a list alone, in order; [`signature`] gives it.
//!
//! # Images
//!
//! Bytes 0 to 15 of an image are `$4` to `$7`, bytes 16 to 31 `$f12` to `$f15`,
//! and from byte 32 on lies the argument area, whose first 16 bytes are the
//! homes of `$4` to `$7`. The C header, `include/o32.h`, says which argument
//! goes where.
//!
//! # Plans
//!
//! A [`Plan`] is for a signature that is sent many times, as in a sweep: it is
//! made once, and an image is filled by it for each list. What `fill` answers is
//! what `write` answers for the list. The plan is compared whole on every call,
//! with the one that the list's signature has on the device, and used for
//! nothing else: one that was damaged, or that isn't the list's, is refused. So
//! a list whose kinds are others than those of the sweep is found; a marker
//! alone is not seen, unless it keeps a float from `$f14`. Time is not saved.
//!
//! # Descriptions
//!
//! A description is one structure, byte by byte, in hexadecimal here. 10 opens a
//! structure and 11 closes it; between them stand its members. The bytes 01 to 08 are members
//! that are no structures, with the sizes of these kinds above, each aligned to
//! its size. A structure may be a member too, to depth 6, the outermost being
//! depth 1. 12 and a count byte, 01 to FF, repeat the member right behind them,
//! so that it stands as often as the count says; a count may be 10, 11 or 12,
//! and the repeated member may not begin with 12.
//!
//! Members lie at the next multiple of their alignments, a structure is aligned
//! as its strictest member, and its size is rounded up to that. No member may
//! end above 512 in its structure.
//!
//! # Refusals
//!
//! [`Refusal`] has the table of all refusals, with their numbers and order.
//!
//! # Building
//!
//! The crate links the static library `libcapi.a`, for x86_64, which `rt lib`
//! builds in the folder `crates/capi` of this repository; it needs a processor
//! with SSE4.2 and POPCNT, and `rt lib --cpu=x86-64` builds one for every
//! x86_64. The environment variable `O32_LIB_DIR` names another directory for
//! it: an absolute one, or one relative to the Cargo workspace that this crate
//! is a member of (`host` in its repository), wherever cargo was started.
//! `[env]` in the configuration of cargo can make it relative to another
//! project.
//!
//! The crate needs no standard library. The static library calls `memmove` and
//! `memset` and nothing else.
//!
//! # Panics
//!
//! The functions of the crate panic if the library that was linked is of
//! another [`VERSION`], and otherwise never.
#![no_std]

#[cfg(test)]
extern crate std;

mod plan;
pub mod raw;
mod refusal;
mod verdict;

pub use plan::{Placement, Plan};
pub use refusal::Refusal;
pub use verdict::Verdict;

/// The version of the library's interface that this crate is written for, as
/// `O32_VERSION` in C.
pub const VERSION: u32 = 6;

/// Bytes of the longest list that is accepted.
pub const LIST_MAX: usize = 1057;

/// Bytes of the longest signature that is accepted: 32 arguments and a marker.
pub const SIGNATURE_MAX: usize = 33;

/// Words of a plan in C.
pub const PLAN_WORDS: usize = 98;

/// Bytes of the longest image.
pub const IMAGE_MAX: usize = 1056;

/// The most bytes of bodies behind a marker.
pub const BODIES_MAX: usize = 1020;

/// Bytes of the longest prologue.
pub const PROLOGUE_MAX: usize = 96;

/// Bytes of the longest epilogue.
pub const EPILOGUE_MAX: usize = 100;

/// The most bytes of code that [`check_prologue`] looks at.
pub const CHECKED_MAX: usize = 256;

/// The board that a call or a frame is for.
#[derive(Clone, Copy, Debug, PartialEq, Eq, Hash)]
pub enum Device {
    /// It has a floating-point unit.
    Fpu = 0,
    /// It has none, so no floating register is used.
    NoFpu = 1,
}

/// The frame that a routine asks for.
///
/// Any numbers may stand here; [`layout`] says which are refused. The default
/// is a routine that calls others and saves nothing, and that is refused.
#[derive(Clone, Copy, Debug, Default, PartialEq, Eq, Hash)]
pub struct Request {
    /// The routine calls no other.
    pub leaf: bool,
    /// Bytes of locals, at most 16,384.
    pub locals: u32,
    /// Most bytes of arguments that it passes to a routine it calls, at most
    /// 1,024; 0 in a leaf.
    pub outgoing: u32,
    /// General registers to save: bit k is `$k`, of `$16` to `$23`, `$28`, `$30`
    /// and `$31`. A routine that is no leaf must save `$31`. `$28` is the global
    /// pointer: name it in a routine that changes it, which isn't checked.
    pub general: u32,
    /// Floating pairs to save: bit k, from 0 to 5, is `$f20`+2k and the next; 0
    /// on a device without a floating-point unit.
    pub pairs: u32,
}

impl From<Request> for raw::Request {
    fn from(request: Request) -> Self {
        raw::Request {
            leaf: request.leaf.into(),
            locals: request.locals,
            outgoing: request.outgoing,
            general: request.general,
            pairs: request.pairs,
        }
    }
}

/// A frame's size and where its areas lie, from `$sp` upward.
///
/// The argument build area lies at offset 0, and the floating save area, the
/// general save area and the locals follow. The offset of an empty area is the
/// end of the area below.
#[non_exhaustive]
#[derive(Clone, Copy, Debug, PartialEq, Eq, Hash)]
pub struct Layout {
    /// Bytes of the frame.
    pub frame: u32,
    /// Bytes of the argument build area.
    pub build: u32,
    /// Offset of the floating save area.
    pub floating: u32,
    /// Offset of the general save area.
    pub general: u32,
    /// Offset of the locals.
    pub locals: u32,
    /// Offset of the word that `$28`, the global pointer, is saved in; `None` if
    /// it isn't saved.
    pub gp: Option<u32>,
}

/// A described structure.
#[non_exhaustive]
#[derive(Clone, Copy, Debug, PartialEq, Eq, Hash)]
pub struct Structure {
    /// Bytes of the structure, rounded up to its alignment.
    pub size: u32,
    /// Its natural alignment, that of its strictest member: 1, 2, 4 or 8. As an
    /// argument it is aligned to 4 even where this is less.
    pub alignment: u32,
    /// The kind of an argument that is such a structure, 40 to FF.
    pub kind: u8,
}

/// The version of the library that was linked. Where it isn't [`VERSION`], the
/// other functions panic.
#[inline]
pub fn version() -> u32 {
    raw::version()
}

/// Writes the signature of a list to the start of `signature`, and gives it
/// back: the list's kind bytes, in order, for [`make_plan`], [`read()`] and
/// [`walk`]. It is the same for every device.
///
/// A buffer of [`SIGNATURE_MAX`] bytes is always enough. Refuses 1 to 5, with
/// their places in the list, and 7.
///
/// ```
/// use o32::{Refusal, SIGNATURE_MAX};
///
/// // A word, a marker, and a signed byte.
/// let list = [0x05, 0, 0, 0, 9, 0x0A, 0x01, 0x80];
/// let mut buffer = [0; SIGNATURE_MAX];
/// assert_eq!(o32::signature(&list, &mut buffer)?, [0x05, 0x0A, 0x01]);
/// assert_eq!(
///     o32::signature(&list[..7], &mut buffer),
///     Err(Refusal::BodyCutOff { place: 6, argument: 2 })
/// );
/// # Ok::<(), Refusal>(())
/// ```
#[inline]
pub fn signature<'a>(list: &[u8], signature: &'a mut [u8]) -> Result<&'a [u8], Refusal> {
    check_version();
    let length = length_of(raw::signature(list, signature))?;
    Ok(&signature[..length])
}

/// The plan of a signature on a device, for [`fill`]. Refuses 1 to 3 and 5.
///
/// A plan holds neither its device nor the marker: the plans of two devices
/// differ only where an argument goes to a floating register, and a marker shows
/// only by keeping the second argument from one.
///
/// ```
/// use o32::{Device, Placement, Refusal};
///
/// fn main() -> Result<(), Refusal> {
///     // A double and a word.
///     let plan = o32::make_plan(Device::Fpu, &[0x08, 0x05])?;
///     assert_eq!((plan.count, plan.area), (2, 16));
///     let double = Placement { kind: 0x08, offset: 0, float_register: 12 };
///     let word = Placement { kind: 0x05, offset: 8, float_register: 0 };
///     assert_eq!(plan.placements[..2], [double, word]);
///     assert_eq!(plan.placements[2..], [Placement::default(); 30]);
///
///     // No 33rd argument has a placement.
///     assert_eq!(
///         o32::make_plan(Device::Fpu, &[0x05; 33]),
///         Err(Refusal::TooManyArguments { place: 32, argument: 33 })
///     );
///     Ok(())
/// }
/// ```
#[inline]
pub fn make_plan(device: Device, signature: &[u8]) -> Result<Plan, Refusal> {
    check_version();
    let mut plan = Plan::default();
    length_of(raw::make_plan(device, signature, raw::words_mut(&mut plan)))?;
    Ok(plan)
}

/// Writes the call image of a list to the start of `image`, by the plan of the
/// list's signature on the device, and gives it back. The image is the one that
/// [`write()`] gives for the list.
///
/// A buffer of [`IMAGE_MAX`] bytes is always enough. Refuses 1 to 5 of the list,
/// then 20 where the plan differs in any number from the one that the list's
/// signature has on the device, then 7.
///
/// ```
/// use o32::{Device, Refusal, IMAGE_MAX};
///
/// fn main() -> Result<(), Refusal> {
///     let plan = o32::make_plan(Device::Fpu, &[0x01])?;
///     let mut buffer = [0; IMAGE_MAX];
///     let image = o32::fill(Device::Fpu, &plan, &[0x01, 0x80], &mut buffer)?;
///     assert_eq!(image[0..4], [0xFF, 0xFF, 0xFF, 0x80]); // $4
///
///     // The plan of a signed byte is none for an unsigned one.
///     assert_eq!(
///         o32::fill(Device::Fpu, &plan, &[0x02, 0x80], &mut buffer),
///         Err(Refusal::PlanDiffers)
///     );
///     // Nor for the same list, once a number of it is another.
///     let mut changed = plan;
///     changed.placements[31].offset = 4;
///     assert_eq!(
///         o32::fill(Device::Fpu, &changed, &[0x01, 0x80], &mut buffer),
///         Err(Refusal::PlanDiffers)
///     );
///     Ok(())
/// }
/// ```
#[inline]
pub fn fill<'a>(
    device: Device,
    plan: &Plan,
    list: &[u8],
    image: &'a mut [u8],
) -> Result<&'a [u8], Refusal> {
    check_version();
    let length = length_of(raw::fill(device, raw::words(plan), list, image))?;
    Ok(&image[..length])
}

/// Writes the call image of a list to the start of `image`, and gives it back.
///
/// This is the form for a list that is sent once, in one call and without a
/// plan. For a signature that is sent many times there are [`make_plan`] and
/// [`fill`].
///
/// A buffer of [`IMAGE_MAX`] bytes is always enough. Refuses 1 to 5 and 7.
///
/// ```
/// use o32::{Device, Refusal, IMAGE_MAX};
///
/// // A word, a marker, and a word that is cut off.
/// let list = [0x05, 0, 0, 0, 9, 0x0A, 0x05, 0, 0];
/// let mut buffer = [0xA5; IMAGE_MAX];
/// let refusal = o32::write(Device::Fpu, &list, &mut buffer).unwrap_err();
/// assert_eq!(refusal, Refusal::BodyCutOff { place: 6, argument: 2 });
/// assert_eq!(
///     refusal.to_string(),
///     "the list ends within an argument's body, at byte 6, argument 2 (refusal 4)"
/// );
/// assert_eq!(buffer, [0xA5; IMAGE_MAX]);
/// ```
#[inline]
pub fn write<'a>(device: Device, list: &[u8], image: &'a mut [u8]) -> Result<&'a [u8], Refusal> {
    check_version();
    let length = length_of(raw::write(device, list, image))?;
    Ok(&image[..length])
}

/// Writes the list that an image reads as under a signature to the start of
/// `list`, and gives it back.
///
/// A buffer of [`LIST_MAX`] bytes is always enough. `image` has the image's
/// exact length. Refuses 1 to 3 and 5 to 8.
///
/// ```
/// use o32::{Device, Refusal};
///
/// // No promotion of a signed byte gives 00000080.
/// let mut image = [0; 48];
/// image[3] = 0x80;
/// assert_eq!(
///     o32::read(Device::Fpu, &[0x01], &image, &mut [0; 2]),
///     Err(Refusal::NoPromotion { place: 0, argument: 1 })
/// );
/// // But that of an unsigned one.
/// assert_eq!(
///     o32::read(Device::Fpu, &[0x02], &image, &mut [0; 2]),
///     Ok(&[0x02, 0x80][..])
/// );
/// ```
#[inline]
pub fn read<'a>(
    device: Device,
    signature: &[u8],
    image: &[u8],
    list: &'a mut [u8],
) -> Result<&'a [u8], Refusal> {
    check_version();
    let length = length_of(raw::read(device, signature, image, list))?;
    Ok(&list[..length])
}

/// Writes what a routine with an ellipsis takes from an image behind the marker
/// of a signature to the start of `bodies`, and gives it back: the arguments'
/// bodies end to end, without their kinds.
///
/// This is to check, before an image is loaded, what the routine will see. Such
/// a routine stores `$4` to `$7` in their homes and goes through memory from the
/// end of the last argument before the marker, asking for one kind at a time. On
/// an image that [`read()`] accepts, these are the bodies that it gives for the
/// arguments behind the marker. Those before the marker are not offered: a float
/// there may have an empty home.
///
/// A buffer of [`BODIES_MAX`] bytes is always enough; where the marker comes
/// last, nothing is written. `image` has the image's exact length. Refuses 1 to
/// 3, 5 to 8 and 15; 8 also for arguments before the marker.
///
/// ```
/// use o32::{Device, Refusal, BODIES_MAX, IMAGE_MAX};
///
/// fn main() -> Result<(), Refusal> {
///     // The single 1.0, the marker, and the double 2.0.
///     let signature = [0x07, 0x0A, 0x08];
///     let list = [0x07, 0x3F, 0x80, 0, 0, 0x0A, 0x08, 0x40, 0, 0, 0, 0, 0, 0, 0];
///     let plan = o32::make_plan(Device::Fpu, &signature)?;
///     let mut buffer = [0; IMAGE_MAX];
///     let image = o32::fill(Device::Fpu, &plan, &list, &mut buffer)?;
///
///     // The single ends at offset 4, the double lies at 8: in $6 and $7.
///     let mut buffer = [0; BODIES_MAX];
///     let bodies = o32::walk(Device::Fpu, &signature, image, &mut buffer)?;
///     assert_eq!(bodies, 2.0f64.to_be_bytes());
///
///     assert_eq!(
///         o32::walk(Device::Fpu, &[0x07, 0x08], image, &mut buffer),
///         Err(Refusal::NoMarker)
///     );
///     Ok(())
/// }
/// ```
#[inline]
pub fn walk<'a>(
    device: Device,
    signature: &[u8],
    image: &[u8],
    bodies: &'a mut [u8],
) -> Result<&'a [u8], Refusal> {
    check_version();
    let length = length_of(raw::walk(device, signature, image, bodies))?;
    Ok(&bodies[..length])
}

/// Lays out a frame. Refuses 9 to 12 and 14.
///
/// ```
/// use o32::{Device, Refusal, Request};
///
/// let request = Request { leaf: true, pairs: 0b1, ..Request::default() };
/// let layout = o32::layout(Device::Fpu, request)?;
/// assert_eq!((layout.frame, layout.floating, layout.general), (8, 0, 8));
/// assert_eq!(layout.gp, None);
/// assert_eq!(
///     o32::layout(Device::NoFpu, request),
///     Err(Refusal::PairsWithoutUnit)
/// );
///
/// // One that changes the global pointer saves it, here above $16.
/// let general = 1 << 16 | 1 << 28;
/// let layout = o32::layout(Device::Fpu, Request { general, ..request })?;
/// assert_eq!((layout.frame, layout.general, layout.gp), (16, 8, Some(12)));
/// # Ok::<(), Refusal>(())
/// ```
#[inline]
pub fn layout(device: Device, request: Request) -> Result<Layout, Refusal> {
    check_version();
    let layout = raw::frame(device, request.into());
    match layout.refusal {
        0 => Ok(Layout {
            frame: layout.frame,
            build: layout.build,
            floating: layout.floating,
            general: layout.general,
            locals: layout.locals,
            gp: (layout.gp_saved != 0).then_some(layout.gp),
        }),
        number => Err(Refusal::of(number, layout.place, 0)),
    }
}

/// Writes a frame's prologue to the start of `code`, and gives it back.
///
/// Instructions are big-endian words. A buffer of [`PROLOGUE_MAX`] bytes is
/// always enough. Refuses 9 to 14.
///
/// ```
/// use o32::{Device, Request, EPILOGUE_MAX, PROLOGUE_MAX};
///
/// fn main() -> Result<(), Box<dyn std::error::Error>> {
///     // A routine that calls others, saves $16 and has one word of locals.
///     let request = Request {
///         leaf: false,
///         locals: 4,
///         general: 1 << 16 | 1 << 31,
///         ..Request::default()
///     };
///     let mut buffer = [0; PROLOGUE_MAX];
///     let prologue = o32::prologue(Device::Fpu, request, &mut buffer)?;
///     assert_eq!(
///         prologue,
///         [
///             0x27, 0xBD, 0xFF, 0xE0, // addiu $sp,$sp,-32
///             0xAF, 0xB0, 0x00, 0x10, // sw $16,16($sp)
///             0xAF, 0xBF, 0x00, 0x14, // sw $31,20($sp)
///         ]
///     );
///
///     let mut buffer = [0; EPILOGUE_MAX];
///     let epilogue = o32::epilogue(Device::Fpu, request, &mut buffer)?;
///     assert_eq!(
///         epilogue,
///         [
///             0x8F, 0xB0, 0x00, 0x10, // lw $16,16($sp)
///             0x8F, 0xBF, 0x00, 0x14, // lw $31,20($sp)
///             0x03, 0xE0, 0x00, 0x08, // jr $31
///             0x27, 0xBD, 0x00, 0x20, // addiu $sp,$sp,32, in the delay slot
///         ]
///     );
///     Ok(())
/// }
/// ```
#[inline]
pub fn prologue(device: Device, request: Request, code: &mut [u8]) -> Result<&[u8], Refusal> {
    check_version();
    let length = length_of(raw::prologue(device, request.into(), code))?;
    Ok(&code[..length])
}

/// Writes a frame's epilogue to the start of `code`, and gives it back.
///
/// Instructions are big-endian words. A buffer of [`EPILOGUE_MAX`] bytes is
/// always enough. Refuses 9 to 14.
///
/// ```
/// use o32::{Device, Request, EPILOGUE_MAX};
///
/// // A leaf without a frame just returns.
/// let request = Request { leaf: true, ..Request::default() };
/// let mut buffer = [0; EPILOGUE_MAX];
/// assert_eq!(
///     o32::epilogue(Device::NoFpu, request, &mut buffer)?,
///     [0x03, 0xE0, 0x00, 0x08, 0, 0, 0, 0]
/// );
/// # Ok::<(), o32::Refusal>(())
/// ```
#[inline]
pub fn epilogue(device: Device, request: Request, code: &mut [u8]) -> Result<&[u8], Refusal> {
    check_version();
    let length = length_of(raw::epilogue(device, request.into(), code))?;
    Ok(&code[..length])
}

/// Says whether `code` is a prologue for a request.
///
/// It is one exactly if its words, big-endian, are the `addiu` of [`prologue`],
/// once and before all stores; the store that `prologue` has for each register
/// that the request names, both of a pair, once and in any order; and 00000000,
/// any number of times and anywhere. For a frame of no bytes the words are
/// 00000000, or there are none. Such code leaves memory and registers as that of
/// `prologue` does.
///
/// Hand over the prologue alone, up to its last store: a word of the body behind
/// it is another word. Refuses 9 to 12, 14 and 21.
///
/// ```
/// use o32::{Device, Refusal, Request, Verdict};
///
/// fn main() -> Result<(), Refusal> {
///     // A routine that calls others, saves $16 and has one word of locals.
///     let request = Request {
///         leaf: false,
///         locals: 4,
///         general: 1 << 16 | 1 << 31,
///         ..Request::default()
///     };
///     let check = |words: &[u32]| {
///         let code: Vec<u8> = words.iter().flat_map(|word| word.to_be_bytes()).collect();
///         o32::check_prologue(Device::Fpu, request, &code)
///     };
///
///     // The stores the other way round, and a no-operation between them.
///     let verdict = check(&[0x27BD_FFE0, 0xAFBF_0014, 0, 0xAFB0_0010])?;
///     assert!(verdict.is_accepted());
///
///     // Without the store of $16.
///     let verdict = check(&[0x27BD_FFE0, 0xAFBF_0014])?;
///     assert_eq!(verdict, Verdict::General(16));
///     assert_eq!(
///         verdict.to_string(),
///         "the store of $16 is missing or doubled (verdict 16)"
///     );
///
///     // Both are stored, but at other places.
///     let verdict = check(&[0x27BD_FFE0, 0xAFB0_0018, 0xAFBF_001C])?;
///     assert_eq!(verdict, Verdict::OtherWords);
///
///     // More words than are looked at.
///     assert_eq!(check(&[0; 65]), Err(Refusal::CodeLength));
///     Ok(())
/// }
/// ```
#[inline]
pub fn check_prologue(device: Device, request: Request, code: &[u8]) -> Result<Verdict, Refusal> {
    check_version();
    let answer = raw::check_prologue(device, request.into(), code);
    match answer.refusal {
        0 => Ok(Verdict::of(answer.verdict)),
        number => Err(Refusal::of(number, answer.place, 0)),
    }
}

/// The size, the alignment and the kind of a structure from its description.
/// They are the same for every device. Refuses 16 to 19.
///
/// ```
/// use o32::{Device, Refusal, IMAGE_MAX};
///
/// fn main() -> Result<(), Refusal> {
///     // A halfword, and a structure of a word and a byte, which stands twice.
///     let description = [0x10, 0x03, 0x12, 2, 0x10, 0x05, 0x01, 0x11, 0x11];
///     let structure = o32::describe(&description)?;
///     assert_eq!((structure.size, structure.alignment), (20, 4));
///     assert_eq!(structure.kind, 0x53);
///
///     // The kind is for signatures and lists.
///     let plan = o32::make_plan(Device::Fpu, &[structure.kind])?;
///     let list = [&[structure.kind][..], &[0xAB; 20]].concat();
///     let mut buffer = [0; IMAGE_MAX];
///     assert_eq!(o32::fill(Device::Fpu, &plan, &list, &mut buffer)?.len(), 56);
///
///     // It is cut off before its end.
///     assert_eq!(
///         o32::describe(&description[..8]),
///         Err(Refusal::MalformedDescription { place: 8 })
///     );
///     Ok(())
/// }
/// ```
#[inline]
pub fn describe(description: &[u8]) -> Result<Structure, Refusal> {
    check_version();
    let structure = raw::describe(description);
    match structure.refusal {
        0 => Ok(Structure {
            size: structure.size,
            alignment: structure.alignment,
            // No kind is above FF.
            kind: structure.kind as u8,
        }),
        number => Err(Refusal::of(number, structure.place, 0)),
    }
}

/// The structs of another version may have other numbers, or the same in another
/// order: a refusal could then pass for a success, or a place for a length.
#[inline]
fn check_version() {
    let linked = version();
    assert!(
        linked == VERSION,
        "this crate is for version {VERSION} of the proved library, and version {linked} is linked"
    );
}

/// Bytes written, or why none were.
#[inline]
fn length_of(answer: raw::Answer) -> Result<usize, Refusal> {
    match answer.refusal {
        0 => Ok(answer.length as usize),
        number => Err(Refusal::of(number, answer.place, answer.argument)),
    }
}
