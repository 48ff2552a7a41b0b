//! Frame layouts, prologues and epilogues.

use crate::{Answer, Device, Refusal};

/// The frame that a function asks for.
#[derive(Clone, Copy, Debug, Default, PartialEq, Eq)]
pub struct Request {
    /// The function calls no other.
    pub leaf: bool,
    /// Bytes of locals.
    pub locals: u32,
    /// Bytes of outgoing arguments.
    pub outgoing: u32,
    /// General registers to save: bit k is `$k`.
    pub general: u32,
    /// Floating pairs to save: bit k is `$f20`+2k and the next.
    pub pairs: u32,
}

/// A frame's size, and the offsets of its areas and of a saved `$28` from `$sp`.
#[derive(Clone, Copy, Debug, Default, PartialEq, Eq)]
pub struct Layout {
    pub refusal: u32,
    pub place: u32,
    /// Size of the frame.
    pub frame: u32,
    /// Size of the argument build area, which lies at offset 0.
    pub build: u32,
    /// Offset of the floating save area.
    pub floating: u32,
    /// Offset of the general save area.
    pub general: u32,
    /// Offset of the locals.
    pub locals: u32,
    /// 1 if `$28`, the global pointer, is saved, otherwise 0.
    pub gp_saved: u32,
    /// Offset of the word that `$28` is saved in; 0 if it isn't saved.
    pub gp: u32,
}

/// `$16` to `$23`, `$28`, `$30` and `$31`: what a function may have to save.
const SAVED_REGISTERS: u32 = 0xD0FF_0000;
const RETURN_ADDRESS: u32 = 1 << 31;
/// The number of the register that is the global pointer.
const GLOBAL_POINTER: u32 = 28;
const PAIR_LIMIT: u32 = 63;
const LOCALS_LIMIT: u32 = 16_384;
const OUTGOING_LIMIT: u32 = 1_024;
/// Room for the homes of four argument words, which every call needs.
const HOMES: u32 = 16;

const ADDIU_SP: u32 = 0x27BD_0000;
pub(crate) const SWC1: u32 = 0xE7A0_0000;
pub(crate) const SW: u32 = 0xAFA0_0000;
const LWC1: u32 = 0xC7A0_0000;
const LW: u32 = 0x8FA0_0000;
const JR_RA: u32 = 0x03E0_0008;
pub(crate) const NOP: u32 = 0;

/// Lays out a frame.
pub fn frame(device: Device, request: Request) -> Layout {
    lay_out(device, &request).unwrap_or_else(|refusal| Layout {
        refusal: refusal.number,
        ..Layout::default()
    })
}

/// Writes a frame's prologue to the start of `code`.
pub fn prologue(device: Device, request: Request, code: &mut [u8]) -> Answer {
    Answer::from_result(write_prologue(device, &request, code))
}

/// Writes a frame's epilogue to the start of `code`.
pub fn epilogue(device: Device, request: Request, code: &mut [u8]) -> Answer {
    Answer::from_result(write_epilogue(device, &request, code))
}

fn check(device: Device, request: &Request) -> Result<(), Refusal> {
    let refuse_if = |condition: bool, number| {
        if condition {
            Err(Refusal::nowhere(number))
        } else {
            Ok(())
        }
    };
    let outgoing_limit = if request.leaf { 0 } else { OUTGOING_LIMIT };
    refuse_if(
        request.general & !SAVED_REGISTERS != 0 || request.pairs > PAIR_LIMIT,
        Refusal::MASKS,
    )?;
    refuse_if(
        device == Device::NoFpu && request.pairs != 0,
        Refusal::PAIRS_WITHOUT_UNIT,
    )?;
    refuse_if(
        !request.leaf && request.general & RETURN_ADDRESS == 0,
        Refusal::RETURN_ADDRESS_NOT_SAVED,
    )?;
    refuse_if(request.locals > LOCALS_LIMIT, Refusal::LOCALS)?;
    refuse_if(request.outgoing > outgoing_limit, Refusal::OUTGOING)
}

pub(crate) fn lay_out(device: Device, request: &Request) -> Result<Layout, Refusal> {
    // No sum before the limits hold: the numbers come from anyone.
    check(device, request)?;
    let build = if request.leaf {
        0
    } else {
        request.outgoing.next_multiple_of(8).max(HOMES)
    };
    let floating = build;
    let general = floating + 8 * request.pairs.count_ones();
    let locals = general + (4 * request.general.count_ones()).next_multiple_of(8);
    let gp = with_offsets(bits(request.general), general)
        .find_map(|(register, offset)| (register == GLOBAL_POINTER).then_some(offset));
    Ok(Layout {
        refusal: 0,
        place: 0,
        frame: (locals + request.locals).next_multiple_of(8),
        build,
        floating,
        general,
        locals,
        gp_saved: gp.is_some().into(),
        gp: gp.unwrap_or(0),
    })
}

/// Registers with the offsets of the words that they are saved in, one behind
/// the other from the start of their area.
pub(crate) fn with_offsets(
    registers: impl Iterator<Item = u32>,
    area: u32,
) -> impl Iterator<Item = (u32, u32)> {
    registers.zip((area..).step_by(4))
}

fn write_prologue(device: Device, request: &Request, code: &mut [u8]) -> Result<usize, Refusal> {
    let layout = lay_out(device, request)?;
    let words = if layout.frame == 0 {
        0
    } else {
        1 + saved_words(request)
    };
    let mut code = Code::of_words(words, code)?;
    if layout.frame != 0 {
        code.put(adjust_sp(layout.frame.wrapping_neg()));
        code.put_saves(request, &layout, SWC1, SW);
    }
    Ok(4 * words)
}

fn write_epilogue(device: Device, request: &Request, code: &mut [u8]) -> Result<usize, Refusal> {
    let layout = lay_out(device, request)?;
    let words = saved_words(request) + 2;
    let mut code = Code::of_words(words, code)?;
    code.put_saves(request, &layout, LWC1, LW);
    code.put(JR_RA);
    // The delay slot takes the frame down, if there is one.
    code.put(if layout.frame == 0 {
        NOP
    } else {
        adjust_sp(layout.frame)
    });
    Ok(4 * words)
}

/// `addiu $sp,$sp,amount`; the amount is at most 17,504 either way.
pub(crate) fn adjust_sp(amount: u32) -> u32 {
    ADDIU_SP | amount & 0xFFFF
}

/// How many words the save areas hold, padding aside.
fn saved_words(request: &Request) -> usize {
    (2 * request.pairs.count_ones() + request.general.count_ones()) as usize
}

/// Instruction words going into a code buffer.
struct Code<'a> {
    words: std::slice::ChunksExactMut<'a, u8>,
}

impl<'a> Code<'a> {
    fn of_words(words: usize, buffer: &'a mut [u8]) -> Result<Self, Refusal> {
        let code = buffer
            .get_mut(..4 * words)
            .ok_or(Refusal::nowhere(Refusal::SHORT_CODE))?;
        Ok(Code {
            words: code.chunks_exact_mut(4),
        })
    }

    fn put(&mut self, word: u32) {
        if let Some(room) = self.words.next() {
            room.copy_from_slice(&word.to_be_bytes());
        }
    }

    /// One instruction for each saved word, from the lowest offset upward.
    fn put_saves(&mut self, request: &Request, layout: &Layout, floating: u32, general: u32) {
        self.put_each(floating, floating_registers(request.pairs), layout.floating);
        self.put_each(general, bits(request.general), layout.general);
    }

    fn put_each(&mut self, opcode: u32, registers: impl Iterator<Item = u32>, area: u32) {
        with_offsets(registers, area)
            .for_each(|(register, offset)| self.put(opcode + (register << 16) + offset));
    }
}

/// The registers of the pairs in a mask, lowest first.
pub(crate) fn floating_registers(pairs: u32) -> impl Iterator<Item = u32> {
    bits(pairs).flat_map(|k| [20 + 2 * k, 21 + 2 * k])
}

/// The numbers of the bits that are set, lowest first.
pub(crate) fn bits(mask: u32) -> impl Iterator<Item = u32> {
    let without_lowest = |&mask: &u32| Some(mask & (mask - 1)).filter(|&rest| rest != 0);
    std::iter::successors(Some(mask).filter(|&mask| mask != 0), without_lowest)
        .map(|mask| mask.trailing_zeros())
}

#[cfg(test)]
mod tests {
    use super::*;

    #[test]
    fn bits_come_lowest_first() {
        assert!(bits(0).eq([]));
        assert!(bits(0x8000_0001).eq([0, 31]));
        assert!(bits(u32::MAX).eq(0..32));
    }
}
