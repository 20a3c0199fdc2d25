//! Tables as text, in the archive `libwivakkol_desk.a`: the feature `desk`.
use crate::refusal::error;
use crate::{raw, Refusal, TablesWork};
use core::fmt;

/// The longest text that is read, in bytes. A longer one may be handed over, and is not assembled.
pub const TEXT_LONGEST: usize = 262_144;

/// Bytes that the text of every table fits.
pub const TEXT_MOST: usize = 266_240;

/// What should have stood on a line of a text.
#[derive(Clone, Copy, Debug, PartialEq, Eq, Hash)]
pub enum Expected {
    /// `thread`, `alloc`, `free`, `fork`, `join`, `work` or `end`.
    Keyword,
    /// A number up to 16,777,215.
    Number,
    /// No more words.
    LineEnd,
    /// The next thread, by its number.
    Thread(u64),
}

impl fmt::Display for Expected {
    fn fmt(&self, f: &mut fmt::Formatter<'_>) -> fmt::Result {
        match self {
            Expected::Keyword => f.write_str("thread, alloc, free, fork, join, work or end"),
            Expected::Number => f.write_str("a number up to 16777215"),
            Expected::LineEnd => f.write_str("the end of the line"),
            Expected::Thread(thread) => write!(f, "thread {thread}"),
        }
    }
}

/// Bytes of a line that an editor may not show, and that are then what is wrong with it.
#[derive(Clone, Copy, Debug, PartialEq, Eq, Hash)]
pub enum Unseen {
    /// A carriage return before a comment; lines end with a newline alone.
    CarriageReturn,
    /// A byte order mark at the line's start.
    ByteOrderMark,
}

/// Why a text gives no table. Lines are counted from 1.
#[derive(Clone, Copy, PartialEq, Eq, Hash)]
pub enum NotAssembled {
    /// More than [`TEXT_LONGEST`] bytes.
    TooLong,
    /// A line is not as it should be.
    Line { line: u64, expected: Expected, unseen: Option<Unseen> },
    /// The buffer has fewer bytes than the table.
    Short { bytes: usize },
    /// The table is refused, 2, 4 or 6 to 11, at the thread or action of that line; with 2 no line tells.
    Refused { refusal: Refusal, line: Option<u64> },
}

impl fmt::Display for NotAssembled {
    fn fmt(&self, f: &mut fmt::Formatter<'_>) -> fmt::Result {
        match self {
            NotAssembled::TooLong => write!(f, "text above {TEXT_LONGEST} bytes"),
            NotAssembled::Line { line, unseen: Some(Unseen::CarriageReturn), .. } => {
                write!(f, "line {line}: a carriage return; lines end with a newline alone")
            }
            NotAssembled::Line { line, unseen: Some(Unseen::ByteOrderMark), .. } => write!(f, "line {line}: a byte order mark; a text begins without one"),
            NotAssembled::Line { line, expected, unseen: None } => write!(f, "line {line}: expected {expected}"),
            NotAssembled::Short { bytes } => write!(f, "the table has {bytes} bytes, and the buffer fewer"),
            NotAssembled::Refused { refusal, line: Some(line) } => write!(f, "line {line}: {refusal}"),
            NotAssembled::Refused { refusal, line: None } => refusal.fmt(f),
        }
    }
}

error!(NotAssembled);

/// Why a table is not written out.
#[derive(Clone, Copy, PartialEq, Eq, Hash)]
pub enum NotListed {
    /// The buffer has fewer bytes than 12 for each thread and 31 for each action.
    Short { bytes: usize },
    /// The table is refused, 1 to 11.
    Refused(Refusal),
}

impl fmt::Display for NotListed {
    fn fmt(&self, f: &mut fmt::Formatter<'_>) -> fmt::Result {
        match self {
            NotListed::Short { bytes } => write!(f, "the text may take {bytes} bytes, and the buffer has fewer"),
            NotListed::Refused(refusal) => refusal.fmt(f),
        }
    }
}

error!(NotListed);

/// The table of a text, put at the start of `out`, which 36,868 bytes ([`TABLE_MOST`](crate::TABLE_MOST)) always suffice for. A refused table stands in `out` too, where the text gives one; else
/// `out` is as it was. docs/REFERENCE.md, "Tables as text", says what a text may have in it.
///
/// ```
/// use wivakkol::{assemble, Expected, NotAssembled, TablesWork, TABLE_MOST};
///
/// let (mut work, mut out) = (TablesWork::new(), [0; TABLE_MOST]);
/// let text = include_bytes!("../../../examples/e.text");
/// assert_eq!(assemble(&mut work, text, &mut out), Ok(&include_bytes!("../../../examples/e.table")[..]));
/// let wrong = NotAssembled::Line { line: 2, expected: Expected::Keyword, unseen: None };
/// assert_eq!(assemble(&mut work, b"thread 0\nweave\n", &mut out), Err(wrong));
/// ```
pub fn assemble<'o>(work: &mut TablesWork, text: &[u8], out: &'o mut [u8]) -> Result<&'o [u8], NotAssembled> {
    let mut row = [0; 6];
    // SAFETY: "`text` points to `length` bytes and `out` to `room`", since each pair is of one slice, whose pointer is never NULL; the row is a local array of its full size, and the working memory
    // fields of one `&mut TablesWork`, so that nothing overlaps and nobody else touches them. Its content does not matter.
    let number = unsafe {
        raw::wivakkol_assemble_on(
            text.as_ptr(),
            text.len(),
            out.as_mut_ptr(),
            out.len(),
            &mut row,
            &mut work.rises,
            &mut work.falls,
            &mut work.peaks,
            &mut work.depths,
        )
    };
    let [place, bytes, line, expected, thread, unseen] = row;
    match number {
        0 => Ok(&out[..bytes as usize]),
        61 => Err(NotAssembled::Short { bytes: bytes as usize }),
        62 => Err(NotAssembled::TooLong),
        63 => Err(NotAssembled::Line { line, expected: expected_of(expected, thread), unseen: unseen_of(unseen) }),
        number => Err(NotAssembled::Refused { refusal: Refusal { number, place }, line: Some(line).filter(|line| *line != 0) }),
    }
}

fn expected_of(code: u64, thread: u64) -> Expected {
    match code {
        1 => Expected::Keyword,
        2 => Expected::Number,
        3 => Expected::LineEnd,
        _ => Expected::Thread(thread),
    }
}

fn unseen_of(code: u64) -> Option<Unseen> {
    match code {
        1 => Some(Unseen::CarriageReturn),
        2 => Some(Unseen::ByteOrderMark),
        _ => None,
    }
}

/// The text of a table, one action to a line with its number as a comment, put at the start of `out`, in ASCII; [`assemble`] gives the table again. `out` must have 12 bytes for each thread and 31
/// for each action, of which [`TEXT_MOST`] always suffice, and is as it was where there is no text.
pub fn disassemble<'o>(work: &mut TablesWork, table: &[u8], out: &'o mut [u8]) -> Result<&'o [u8], NotListed> {
    let mut row = [0; 2];
    // SAFETY: as in `assemble`.
    let number = unsafe {
        raw::wivakkol_disassemble_on(
            table.as_ptr(),
            table.len(),
            out.as_mut_ptr(),
            out.len(),
            &mut row,
            &mut work.rises,
            &mut work.falls,
            &mut work.peaks,
            &mut work.depths,
        )
    };
    let [place, bytes] = row;
    match number {
        0 => Ok(&out[..bytes as usize]),
        61 => Err(NotListed::Short { bytes: bytes as usize }),
        number => Err(NotListed::Refused(Refusal { number, place })),
    }
}
