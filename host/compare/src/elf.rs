//! Sections of object files for 32-bit big-endian MIPS, in ELF.

/// How such a file begins: the name of the format, 32 bits, big-endian.
const BEGINNING: [u8; 6] = [0x7F, b'E', b'L', b'F', 1, 2];

const MIPS: usize = 8;

/// The bytes of a section, if there is one of this name.
pub fn section<'a>(object: &'a [u8], name: &str) -> Option<&'a [u8]> {
    if !object.starts_with(&BEGINNING) || half(object, 0x12)? != MIPS {
        return None;
    }
    let (table, size) = (word(object, 0x20)?, half(object, 0x2E)?);
    let (count, names) = (half(object, 0x30)?, half(object, 0x32)?);
    let header = |index: usize| object.get(table + index * size..);
    let names = content(object, header(names)?)?;
    let header = (0..count)
        .filter_map(header)
        .find(|header| has_name(names, header, name).unwrap_or(false))?;
    content(object, header)
}

/// What the section has that a header is of.
fn content<'a>(object: &'a [u8], header: &[u8]) -> Option<&'a [u8]> {
    let (start, length) = (word(header, 0x10)?, word(header, 0x14)?);
    object.get(start..)?.get(..length)
}

/// Whether a header says where this name stands among the names, which end in
/// zeros.
fn has_name(names: &[u8], header: &[u8], name: &str) -> Option<bool> {
    let rest = names.get(word(header, 0)?..)?;
    let rest = rest.strip_prefix(name.as_bytes());
    Some(rest.is_some_and(|rest| rest.first() == Some(&0)))
}

fn word(bytes: &[u8], at: usize) -> Option<usize> {
    Some(half(bytes, at)? << 16 | half(bytes, at + 2)?)
}

fn half(bytes: &[u8], at: usize) -> Option<usize> {
    let half = bytes.get(at..at + 2)?;
    Some(usize::from(half[0]) << 8 | usize::from(half[1]))
}
