//! The C functions as they are, with every number of their answers.
//!
//! This is for tools that look at each number, such as a comparison with
//! another implementation; programs have the functions of the crate itself.
//! Those here don't check the library's version.
//!
//! Each function takes a buffer as a pointer and a length, and none keeps a
//! pointer after it has returned, so a Rust slice is all that it needs. This is
//! the only module with `unsafe` code.
#![allow(unsafe_code)]

use crate::{Device, Plan, PLAN_WORDS};

/// What each function answers that has an output buffer.
#[must_use = "the buffer has no result if this is a refusal"]
#[repr(C)]
#[derive(Clone, Copy, Debug, Default, PartialEq, Eq)]
pub struct Answer {
    /// 0 on success, otherwise the number of the refusal.
    pub refusal: u32,
    /// Offset of the refused kind byte, 0 where the refusal has no place.
    pub place: u32,
    /// Number of the refused argument, from 1; 0 where the refusal has none.
    pub argument: u32,
    /// Bytes written, or words of a plan; 0 on a refusal.
    pub length: u32,
}

/// A frame's size, and the offsets of its areas and of a saved `$28` from `$sp`.
///
/// All zero on a refusal but for `refusal` itself.
#[must_use = "there is no frame if this is a refusal"]
#[repr(C)]
#[derive(Clone, Copy, Debug, Default, PartialEq, Eq)]
pub struct Layout {
    /// 0 on success, otherwise the number of the refusal.
    pub refusal: u32,
    /// Always 0.
    pub place: u32,
    /// Size of the frame.
    pub frame: u32,
    /// Size of the argument build area, which lies at offset 0.
    pub build: u32,
    /// Offset of the floating save area.
    pub floating: u32,
    /// Offset of the general save area.
    pub general: u32,
    /// Offset of the locals.
    pub locals: u32,
    /// 1 if `$28`, the global pointer, is saved, otherwise 0.
    pub gp_saved: u32,
    /// Offset of the word that `$28` is saved in, which may be 0; 0 if it isn't
    /// saved.
    pub gp: u32,
}

/// What is answered to code that is to be a frame's prologue.
///
/// The code is a prologue only if both `refusal` and `verdict` are 0.
#[must_use = "the code may be no prologue"]
#[repr(C)]
#[derive(Clone, Copy, Debug, Default, PartialEq, Eq)]
pub struct Verdict {
    /// 0 if the code was looked at, otherwise the number of the refusal.
    pub refusal: u32,
    /// Always 0.
    pub place: u32,
    /// 0 for a prologue of the request, and on a refusal; 16 to 31 for a general
    /// register and 52 to 63 for a floating one, less 32, whose store is missing
    /// or is there more than once; 255 for other words.
    pub verdict: u32,
}

/// What is answered to a description of a structure.
///
/// `size`, `alignment` and `kind` are 0 on a refusal.
#[must_use = "there is no size if this is a refusal"]
#[repr(C)]
#[derive(Clone, Copy, Debug, Default, PartialEq, Eq)]
pub struct Structure {
    /// 0 on success, otherwise the number of the refusal.
    pub refusal: u32,
    /// Offset of the refused byte in the description, its length where bytes
    /// are missing, and 0 where no kind has the size.
    pub place: u32,
    /// Bytes of the structure, rounded up to its alignment.
    pub size: u32,
    /// Its natural alignment: 1, 2, 4 or 8.
    pub alignment: u32,
    /// The kind byte of an argument that is such a structure.
    pub kind: u32,
}

/// The frame that a function asks for, in the numbers of the C functions.
#[derive(Clone, Copy, Debug, Default, PartialEq, Eq)]
pub struct Request {
    /// 0 is no, anything else yes.
    pub leaf: u32,
    /// Bytes of locals.
    pub locals: u32,
    /// Bytes of outgoing arguments.
    pub outgoing: u32,
    /// General registers to save: bit k is `$k`.
    pub general: u32,
    /// Floating pairs to save: bit k is `$f20`+2k and the next.
    pub pairs: u32,
}

mod capi {
    use super::{Answer, Layout, Structure, Verdict};

    extern "C" {
        pub fn o32_version() -> u32;

        pub fn o32_signature(
            list: *const u8,
            list_len: usize,
            signature: *mut u8,
            signature_len: usize,
        ) -> Answer;

        pub fn o32_make_plan(
            device: u32,
            signature: *const u8,
            signature_len: usize,
            plan: *mut u32,
            plan_words: usize,
        ) -> Answer;

        pub fn o32_fill(
            device: u32,
            plan: *const u32,
            plan_words: usize,
            list: *const u8,
            list_len: usize,
            image: *mut u8,
            image_len: usize,
        ) -> Answer;

        pub fn o32_write(
            device: u32,
            list: *const u8,
            list_len: usize,
            image: *mut u8,
            image_len: usize,
        ) -> Answer;

        pub fn o32_read(
            device: u32,
            signature: *const u8,
            signature_len: usize,
            image: *const u8,
            image_len: usize,
            list: *mut u8,
            list_len: usize,
        ) -> Answer;

        pub fn o32_walk(
            device: u32,
            signature: *const u8,
            signature_len: usize,
            image: *const u8,
            image_len: usize,
            bodies: *mut u8,
            bodies_len: usize,
        ) -> Answer;

        pub fn o32_frame(
            device: u32,
            leaf: u32,
            locals: u32,
            outgoing: u32,
            general: u32,
            pairs: u32,
        ) -> Layout;

        pub fn o32_prologue(
            device: u32,
            leaf: u32,
            locals: u32,
            outgoing: u32,
            general: u32,
            pairs: u32,
            code: *mut u8,
            code_len: usize,
        ) -> Answer;

        pub fn o32_epilogue(
            device: u32,
            leaf: u32,
            locals: u32,
            outgoing: u32,
            general: u32,
            pairs: u32,
            code: *mut u8,
            code_len: usize,
        ) -> Answer;

        pub fn o32_check_prologue(
            device: u32,
            leaf: u32,
            locals: u32,
            outgoing: u32,
            general: u32,
            pairs: u32,
            code: *const u8,
            code_len: usize,
        ) -> Verdict;

        pub fn o32_describe(description: *const u8, description_len: usize) -> Structure;
    }
}

/// The version of the library that was linked.
#[inline]
pub fn version() -> u32 {
    // SAFETY: the function takes nothing and has no state.
    unsafe { capi::o32_version() }
}

/// Puts the kind bytes of a list at the start of `signature`.
#[inline]
pub fn signature(list: &[u8], signature: &mut [u8]) -> Answer {
    // SAFETY: both pointers are valid for the lengths that go with them, the
    // one for reads and the other for writes, and the borrows keep them apart.
    unsafe {
        capi::o32_signature(
            list.as_ptr(),
            list.len(),
            signature.as_mut_ptr(),
            signature.len(),
        )
    }
}

/// Puts the plan of a signature at the start of `plan`, in the order of
/// [`Plan`]; the answered length counts words.
#[inline]
pub fn make_plan(device: Device, signature: &[u8], plan: &mut [u32]) -> Answer {
    // SAFETY: as for `signature`; the length of `plan` counts words, as in C.
    unsafe {
        capi::o32_make_plan(
            device as u32,
            signature.as_ptr(),
            signature.len(),
            plan.as_mut_ptr(),
            plan.len(),
        )
    }
}

/// Turns an argument list into a call image at the start of `image`, by the plan
/// of its signature. The words of the plan may be any, and of any number.
#[inline]
pub fn fill(device: Device, plan: &[u32], list: &[u8], image: &mut [u8]) -> Answer {
    // SAFETY: as for `make_plan`; plan and list are only read.
    unsafe {
        capi::o32_fill(
            device as u32,
            plan.as_ptr(),
            plan.len(),
            list.as_ptr(),
            list.len(),
            image.as_mut_ptr(),
            image.len(),
        )
    }
}

/// The words of a plan.
#[inline]
pub(crate) fn words(plan: &Plan) -> &[u32; PLAN_WORDS] {
    // SAFETY: the struct has C's layout, consists of so many words and of
    // nothing else, and is aligned as its words are.
    unsafe { &*(plan as *const Plan).cast() }
}

/// The words of a plan, to be written.
#[inline]
pub(crate) fn words_mut(plan: &mut Plan) -> &mut [u32; PLAN_WORDS] {
    // SAFETY: as for `words`, and any words make a plan as Rust sees it.
    unsafe { &mut *(plan as *mut Plan).cast() }
}

/// Turns an argument list into a call image at the start of `image`.
#[inline]
pub fn write(device: Device, list: &[u8], image: &mut [u8]) -> Answer {
    // SAFETY: as for `signature`.
    unsafe {
        capi::o32_write(
            device as u32,
            list.as_ptr(),
            list.len(),
            image.as_mut_ptr(),
            image.len(),
        )
    }
}

/// Reads a call image back under a signature, as a list at the start of `list`.
#[inline]
pub fn read(device: Device, signature: &[u8], image: &[u8], list: &mut [u8]) -> Answer {
    // SAFETY: as for `write`; signature and image are only read, so it does no
    // harm if they overlap.
    unsafe {
        capi::o32_read(
            device as u32,
            signature.as_ptr(),
            signature.len(),
            image.as_ptr(),
            image.len(),
            list.as_mut_ptr(),
            list.len(),
        )
    }
}

/// Takes the arguments behind the marker as a routine with an ellipsis does, and
/// puts their bodies end to end at the start of `bodies`.
#[inline]
pub fn walk(device: Device, signature: &[u8], image: &[u8], bodies: &mut [u8]) -> Answer {
    // SAFETY: as for `read`.
    unsafe {
        capi::o32_walk(
            device as u32,
            signature.as_ptr(),
            signature.len(),
            image.as_ptr(),
            image.len(),
            bodies.as_mut_ptr(),
            bodies.len(),
        )
    }
}

/// Lays out a frame.
#[inline]
pub fn frame(device: Device, request: Request) -> Layout {
    let Request {
        leaf,
        locals,
        outgoing,
        general,
        pairs,
    } = request;
    // SAFETY: only numbers cross the boundary, and any number may.
    unsafe { capi::o32_frame(device as u32, leaf, locals, outgoing, general, pairs) }
}

/// Writes a frame's prologue to the start of `code`.
#[inline]
pub fn prologue(device: Device, request: Request, code: &mut [u8]) -> Answer {
    let Request {
        leaf,
        locals,
        outgoing,
        general,
        pairs,
    } = request;
    // SAFETY: the pointer is valid for writes of the length that goes with it.
    unsafe {
        capi::o32_prologue(
            device as u32,
            leaf,
            locals,
            outgoing,
            general,
            pairs,
            code.as_mut_ptr(),
            code.len(),
        )
    }
}

/// Writes a frame's epilogue to the start of `code`.
#[inline]
pub fn epilogue(device: Device, request: Request, code: &mut [u8]) -> Answer {
    let Request {
        leaf,
        locals,
        outgoing,
        general,
        pairs,
    } = request;
    // SAFETY: as for `prologue`.
    unsafe {
        capi::o32_epilogue(
            device as u32,
            leaf,
            locals,
            outgoing,
            general,
            pairs,
            code.as_mut_ptr(),
            code.len(),
        )
    }
}

/// Says whether `code` is a prologue for a frame.
#[inline]
pub fn check_prologue(device: Device, request: Request, code: &[u8]) -> Verdict {
    let Request {
        leaf,
        locals,
        outgoing,
        general,
        pairs,
    } = request;
    // SAFETY: the pointer is valid for reads of the length that goes with it.
    unsafe {
        capi::o32_check_prologue(
            device as u32,
            leaf,
            locals,
            outgoing,
            general,
            pairs,
            code.as_ptr(),
            code.len(),
        )
    }
}

/// The size, natural alignment and kind byte of a described structure.
#[inline]
pub fn describe(description: &[u8]) -> Structure {
    // SAFETY: the pointer is valid for reads of the length that goes with it.
    unsafe { capi::o32_describe(description.as_ptr(), description.len()) }
}
