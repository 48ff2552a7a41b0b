//! Structures from descriptions of their members.

use crate::kind::Kind;
use crate::offsets::align_up;

/// How many structures may be open at once.
const DEPTH_LIMIT: usize = 6;

/// Where a member may end in its structure.
const END_LIMIT: usize = 512;

/// What `describe` answers.
#[derive(Clone, Copy, Debug, Default, PartialEq, Eq)]
pub struct Structure {
    /// 0 on success, otherwise the number of the refusal.
    pub refusal: u32,
    /// Offset of the refused byte, the description's length where bytes are
    /// missing, and 0 where no kind has the size.
    pub place: u32,
    /// Bytes of the structure, those behind its last member included.
    pub size: u32,
    /// Its natural alignment: 1, 2, 4 or 8.
    pub alignment: u32,
    /// The kind byte of an argument that is such a structure.
    pub kind: u32,
}

/// Why a description is refused.
#[derive(Clone, Copy, Debug, PartialEq, Eq)]
pub enum Cause {
    /// The byte stands in no description but as a count.
    UnknownByte,
    /// The byte can't stand there.
    MisplacedByte,
    /// A member is to stand 0 times.
    RepeatOfZero,
    /// The description ends before the outermost structure is closed.
    BytesMissing,
    /// The description goes on behind the outermost structure.
    BytesLeftOver,
    /// A structure is opened at depth 7.
    TooDeep,
    /// A member ends above 512 in its structure.
    BeyondLimit,
    /// A structure is closed before it has a member.
    EmptyStructure,
    /// No kind has the structure's size.
    NoKind,
}

impl Cause {
    pub const ALL: [Cause; 9] = [
        Cause::UnknownByte,
        Cause::MisplacedByte,
        Cause::RepeatOfZero,
        Cause::BytesMissing,
        Cause::BytesLeftOver,
        Cause::TooDeep,
        Cause::BeyondLimit,
        Cause::EmptyStructure,
        Cause::NoKind,
    ];

    /// The number of the refusal.
    pub fn number(self) -> u32 {
        match self {
            Cause::UnknownByte
            | Cause::MisplacedByte
            | Cause::RepeatOfZero
            | Cause::BytesMissing
            | Cause::BytesLeftOver => 16,
            Cause::TooDeep => 17,
            Cause::BeyondLimit => 18,
            Cause::EmptyStructure | Cause::NoKind => 19,
        }
    }
}

/// The size, natural alignment and kind byte of a described structure.
pub fn describe(description: &[u8]) -> Structure {
    match described(description) {
        Ok((layout, kind)) => Structure {
            refusal: 0,
            place: 0,
            size: layout.size as u32,
            alignment: layout.alignment as u32,
            kind: u32::from(kind),
        },
        Err(fault) => Structure {
            refusal: fault.cause.number(),
            // No description gets further than its limits, some 40,000 bytes.
            place: fault.place as u32,
            ..Structure::default()
        },
    }
}

/// Why a description is refused, `None` if it is accepted. Refusals alone don't
/// tell: several causes have the same number.
pub fn cause_of_refusal(description: &[u8]) -> Option<Cause> {
    described(description).err().map(|fault| fault.cause)
}

/// What is wrong, and where.
struct Fault {
    cause: Cause,
    place: usize,
}

fn described(description: &[u8]) -> Result<(Layout, u8), Fault> {
    let mut reading = Reading::default();
    for (place, &byte) in description.iter().enumerate() {
        reading.take(byte).map_err(|cause| Fault { cause, place })?;
    }
    let State::Closed(layout) = reading.state else {
        return Err(Fault {
            cause: Cause::BytesMissing,
            place: description.len(),
        });
    };
    let kind = kind_byte(layout).ok_or(Fault {
        cause: Cause::NoKind,
        place: 0,
    })?;
    Ok((layout, kind))
}

/// The kind byte of a structure. Those aligned to doublewords have kinds of
/// their own, all others have the kinds aligned to words.
fn kind_byte(layout: Layout) -> Option<u8> {
    let size = layout.size as u16;
    let kind = match layout.alignment {
        8 => Kind::WideStructure(size),
        _ => Kind::Structure(size),
    };
    (0..=0xFF).find(|&byte| Kind::of(byte) == Some(kind))
}

/// The size and the alignment of a member or of a structure.
#[derive(Clone, Copy, Debug, PartialEq, Eq)]
struct Layout {
    size: usize,
    alignment: usize,
}

/// What a byte stands for, unless it is a count.
#[derive(Clone, Copy, Debug, PartialEq, Eq)]
enum Token {
    /// A member that is no structure.
    Scalar(Layout),
    /// Opens a structure.
    Open,
    /// Closes it.
    Close,
    /// Stands before a count and the member that is repeated.
    Repeat,
    Unknown,
}

impl Token {
    fn of(byte: u8) -> Token {
        match byte {
            0x01 | 0x02 => Token::scalar(1),
            0x03 | 0x04 => Token::scalar(2),
            0x05 | 0x07 => Token::scalar(4),
            0x06 | 0x08 => Token::scalar(8),
            0x10 => Token::Open,
            0x11 => Token::Close,
            0x12 => Token::Repeat,
            _ => Token::Unknown,
        }
    }

    /// A scalar is aligned to its size.
    fn scalar(size: usize) -> Token {
        Token::Scalar(Layout {
            size,
            alignment: size,
        })
    }
}

/// A structure that isn't closed yet.
#[derive(Debug)]
struct OpenStructure {
    /// How many times it stands in the structure around it.
    repeats: usize,
    /// Where its last member ends; 0 before the first.
    end: usize,
    /// The alignment of its strictest member; 1 before the first.
    alignment: usize,
}

impl OpenStructure {
    /// Adds a member that stands so many times, end to end.
    fn add(&mut self, member: Layout, repeats: usize) -> Result<(), Cause> {
        let end = align_up(self.end, member.alignment) + repeats * member.size;
        if end > END_LIMIT {
            return Err(Cause::BeyondLimit);
        }
        self.end = end;
        self.alignment = self.alignment.max(member.alignment);
        Ok(())
    }

    /// Its layout when it is closed. Every member has at least a byte, so only
    /// a structure without any ends at 0.
    fn close(&self) -> Result<Layout, Cause> {
        if self.end == 0 {
            return Err(Cause::EmptyStructure);
        }
        Ok(Layout {
            size: align_up(self.end, self.alignment),
            alignment: self.alignment,
        })
    }
}

/// What the bytes so far ask of the next one.
#[derive(Clone, Copy, Debug, Default)]
enum State {
    /// There are none: the outermost structure must be opened.
    #[default]
    Start,
    /// A structure is open: it goes on with a member or a repeat, or is closed.
    Members,
    /// Behind a repeat: the count must follow.
    Count,
    /// Behind a count: the member that stands so many times must follow.
    Repeated(usize),
    /// The outermost structure is closed: nothing may follow.
    Closed(Layout),
}

/// A description that is read from left to right.
#[derive(Debug, Default)]
struct Reading {
    state: State,
    /// The structures that aren't closed, the outermost first.
    open: Vec<OpenStructure>,
}

impl Reading {
    /// Takes the next byte, unless it is refused.
    fn take(&mut self, byte: u8) -> Result<(), Cause> {
        self.state = match (self.state, Token::of(byte)) {
            (State::Closed(_), _) => return Err(Cause::BytesLeftOver),
            // A count is a number, also where it equals a byte of structures.
            (State::Count, _) => State::Repeated(count(byte)?),
            (State::Start | State::Members, Token::Open) => self.open(1)?,
            (State::Repeated(repeats), Token::Open) => self.open(repeats)?,
            (State::Members, Token::Close) => self.close()?,
            (State::Members, Token::Repeat) => State::Count,
            (State::Members, Token::Scalar(scalar)) => self.add(scalar, 1)?,
            (State::Repeated(repeats), Token::Scalar(scalar)) => self.add(scalar, repeats)?,
            (_, Token::Unknown) => return Err(Cause::UnknownByte),
            (_, _) => return Err(Cause::MisplacedByte),
        };
        Ok(())
    }

    fn open(&mut self, repeats: usize) -> Result<State, Cause> {
        if self.open.len() == DEPTH_LIMIT {
            return Err(Cause::TooDeep);
        }
        self.open.push(OpenStructure {
            repeats,
            end: 0,
            alignment: 1,
        });
        Ok(State::Members)
    }

    /// Closes the innermost structure. It is a member of the one around it, if
    /// there is one.
    fn close(&mut self) -> Result<State, Cause> {
        let structure = self.open.pop().ok_or(Cause::MisplacedByte)?;
        let layout = structure.close()?;
        if self.open.is_empty() {
            Ok(State::Closed(layout))
        } else {
            self.add(layout, structure.repeats)
        }
    }

    /// Adds a member to the innermost structure.
    fn add(&mut self, member: Layout, repeats: usize) -> Result<State, Cause> {
        let structure = self.open.last_mut().ok_or(Cause::MisplacedByte)?;
        structure.add(member, repeats)?;
        Ok(State::Members)
    }
}

/// How many times a count byte repeats a member.
fn count(byte: u8) -> Result<usize, Cause> {
    match byte {
        0 => Err(Cause::RepeatOfZero),
        _ => Ok(usize::from(byte)),
    }
}
