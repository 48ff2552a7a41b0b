//! Whether code is a prologue for a request.

use crate::frame::{adjust_sp, bits, floating_registers, lay_out, with_offsets, NOP, SW, SWC1};
use crate::{Device, Layout, Refusal, Request};

/// What is answered to code that is to be a frame's prologue.
#[derive(Clone, Copy, Debug, Default, PartialEq, Eq)]
pub struct Verdict {
    pub refusal: u32,
    pub place: u32,
    /// 0 if the code is a prologue for the request, and with a refusal; 255 if
    /// other words than those of the request stand there, or the `addiu` isn't
    /// once and first; otherwise the first register whose store isn't there just
    /// once, a floating one as 32 + its number.
    pub verdict: u32,
}

const ACCEPTED: u32 = 0;
const OTHER_WORDS: u32 = 255;

/// What floating registers have above their numbers in a verdict.
const FLOATING: u32 = 32;

/// The most bytes of code that are looked at.
const LENGTH_LIMIT: usize = 256;

/// Says whether `code` is a prologue for the request.
pub fn check_prologue(device: Device, request: Request, code: &[u8]) -> Verdict {
    match judge(device, &request, code) {
        Ok(verdict) => Verdict {
            verdict,
            ..Verdict::default()
        },
        Err(refusal) => Verdict {
            refusal: refusal.number,
            ..Verdict::default()
        },
    }
}

fn judge(device: Device, request: &Request, code: &[u8]) -> Result<u32, Refusal> {
    let layout = lay_out(device, request)?;
    if code.len() % 4 != 0 || code.len() > LENGTH_LIMIT {
        return Err(Refusal::nowhere(Refusal::CODE_LENGTH));
    }
    Ok(verdict_on(&instructions(code), request, &layout))
}

/// The words of code but 00000000, which may stand anywhere.
fn instructions(code: &[u8]) -> Vec<u32> {
    code.chunks_exact(4)
        .map(|bytes| u32::from_be_bytes([bytes[0], bytes[1], bytes[2], bytes[3]]))
        .filter(|&word| word != NOP)
        .collect()
}

fn verdict_on(instructions: &[u32], request: &Request, layout: &Layout) -> u32 {
    if layout.frame == 0 {
        return if instructions.is_empty() {
            ACCEPTED
        } else {
            OTHER_WORDS
        };
    }
    let addiu = adjust_sp(layout.frame.wrapping_neg());
    let stores = stores(request, layout);
    let times = |word| instructions.iter().filter(|&&other| other == word).count();
    let is_known = |&word: &u32| word == addiu || stores.iter().any(|&(_, store)| store == word);

    if !instructions.iter().all(is_known)
        || times(addiu) != 1
        || instructions.first() != Some(&addiu)
    {
        return OTHER_WORDS;
    }
    stores
        .iter()
        .find(|&&(_, store)| times(store) != 1)
        .map_or(ACCEPTED, |&(name, _)| name)
}

/// Each named register, as a verdict names it and in the order in which they are
/// named, with the word that stores it at its place.
fn stores(request: &Request, layout: &Layout) -> Vec<(u32, u32)> {
    let general = with_offsets(bits(request.general), layout.general)
        .map(|(register, offset)| (register, SW + (register << 16) + offset));
    let floating = with_offsets(floating_registers(request.pairs), layout.floating)
        .map(|(register, offset)| (FLOATING + register, SWC1 + (register << 16) + offset));
    general.chain(floating).collect()
}
