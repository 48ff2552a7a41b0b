//! The writer and the reader of call images.

use crate::kind::{Kind, Promotion};
use crate::records::{Record, Records};
use crate::{Answer, Device, Refusal};

/// Turns an argument list into a call image at the start of `image`.
pub fn write(device: Device, list: &[u8], image: &mut [u8]) -> Answer {
    Answer::from_result(write_image(device, list, image))
}

/// Reads a call image back under a signature, as a list at the start of `list`.
pub fn read(device: Device, signature: &[u8], image: &[u8], list: &mut [u8]) -> Answer {
    Answer::from_result(read_image(device, signature, image, list))
}

fn write_image(device: Device, list: &[u8], image: &mut [u8]) -> Result<usize, Refusal> {
    put_image(&Records::of_list(device, list)?, list, image)
}

/// Writes the image of a list that has these records.
#[inline]
pub(crate) fn put_image(
    records: &Records,
    list: &[u8],
    image: &mut [u8],
) -> Result<usize, Refusal> {
    let length = records.image_length();
    let image = image
        .get_mut(..length)
        .ok_or(Refusal::nowhere(Refusal::SHORT_OUTPUT))?;

    // What carries nothing is zero: holes, fill, homes and unused registers.
    image.fill(0);
    for record in records.as_slice() {
        let body = &list[record.place + 1..][..record.kind.body()];
        match record.kind {
            Kind::Marker => {}
            Kind::Short(promotion) => {
                record.location.put(&promoted(promotion, body), image);
            }
            _ => record.location.put(body, image),
        }
    }
    Ok(length)
}

fn read_image(
    device: Device,
    signature: &[u8],
    image: &[u8],
    list: &mut [u8],
) -> Result<usize, Refusal> {
    let records = Records::of_signature(device, signature)?;
    let length = records.lengths().list;
    let mut rest = checked_output(&records, image, length, list)?;
    for record in records.as_slice() {
        let (head, tail) = rest.split_at_mut(1 + record.kind.body());
        let (kind_byte, body) = head.split_at_mut(1);
        kind_byte[0] = signature[record.place];
        take_body(record, image, body);
        rest = tail;
    }
    Ok(length)
}

/// The first `length` bytes of `output`, unless the image or the output is
/// refused. Nothing may be written before every word has been looked at.
pub(crate) fn checked_output<'a>(
    records: &Records,
    image: &[u8],
    length: usize,
    output: &'a mut [u8],
) -> Result<&'a mut [u8], Refusal> {
    if image.len() != records.image_length() {
        return Err(Refusal::nowhere(Refusal::IMAGE_LENGTH));
    }
    let output = output
        .get_mut(..length)
        .ok_or(Refusal::nowhere(Refusal::SHORT_OUTPUT))?;
    for record in records.as_slice() {
        check_promotion(record, image)?;
    }
    Ok(output)
}

/// Refuses a word of a byte or halfword that promotion can't have made.
fn check_promotion(record: &Record, image: &[u8]) -> Result<(), Refusal> {
    let refusal = Refusal::at(Refusal::NO_PROMOTION, record.place, record.argument);
    match record.kind {
        Kind::Short(promotion) if !is_proper(promotion, word_of(record, image)) => Err(refusal),
        _ => Ok(()),
    }
}

fn is_proper(promotion: Promotion, word: u32) -> bool {
    promotion.extend(word) == word
}

/// Fills `body` with the argument as it stood before promotion.
fn take_body(record: &Record, image: &[u8], body: &mut [u8]) {
    match record.kind {
        Kind::Marker => {}
        Kind::Short(_) => {
            let word = word_of(record, image).to_be_bytes();
            body.copy_from_slice(&word[word.len() - body.len()..]);
        }
        _ => record.location.get(image, body),
    }
}

/// The word that a byte or halfword is promoted to.
fn promoted(promotion: Promotion, body: &[u8]) -> [u8; 4] {
    let value = body
        .iter()
        .fold(0, |value, &byte| value << 8 | u32::from(byte));
    promotion.extend(value).to_be_bytes()
}

/// The word of an argument of four bytes.
fn word_of(record: &Record, image: &[u8]) -> u32 {
    let mut word = [0; 4];
    record.location.get(image, &mut word);
    u32::from_be_bytes(word)
}
