//! The calls on whole tables, in the archive `libwivakkol_tables.a`: the feature `tables`.
use crate::refusal::error;
use crate::{raw, Facts, Refusal, TablesWork, TABLE_MOST};
use core::cmp::Ordering;
use core::fmt;

/// The refusal of one of several tables, and which of them it is, counted from 0.
#[derive(Clone, Copy, PartialEq, Eq, Hash)]
pub struct RefusedTable {
    pub refusal: Refusal,
    pub table: usize,
}

impl fmt::Display for RefusedTable {
    fn fmt(&self, f: &mut fmt::Formatter<'_>) -> fmt::Result {
        write!(f, "table {}: {}", self.table, self.refusal)
    }
}

error!(RefusedTable);

/// The canonical form of a table, put at the start of `out`: its threads numbered by the serial order of their forks, the root staying 0. It has as many bytes as the table, and the same facts.
/// Refused with 1 to 11; `out` is then as it was.
///
/// ```
/// use wivakkol::{canonical, TablesWork, TABLE_MOST};
///
/// let table = include_bytes!("../../../examples/e.table");
/// let mut out = [0; TABLE_MOST];
/// assert_eq!(canonical(&mut TablesWork::new(), table, &mut out)?, table); // E is its own form
/// # Ok::<(), wivakkol::Refusal>(())
/// ```
pub fn canonical<'o>(work: &mut TablesWork, table: &[u8], out: &'o mut [u8; TABLE_MOST]) -> Result<&'o [u8], Refusal> {
    let mut row = [0; 2];
    // SAFETY: "`table` points to `length` bytes that may be read", since both are of one slice, whose pointer is never NULL; the row is a local array of its full size, `out` a reference to one,
    // and the working memory fields of one `&mut TablesWork`, so that nothing overlaps and nobody else touches them. Its content does not matter.
    let number =
        unsafe { raw::wivakkol_canonical_on(table.as_ptr(), table.len(), out, &mut row, &mut work.rises, &mut work.falls, &mut work.names, &mut work.order) };
    let [place, bytes] = row;
    Refusal::unless_zero(number, place)?;
    Ok(&out[..bytes as usize])
}

/// How two tables stand by the bytes of their canonical forms, the first difference deciding: `Equal` exactly when one becomes the other by renaming threads. The forms are then at the starts of
/// `a` and `b`. A refused table gives its own refusal, 1 to 11, the first table's before the second's; `a` and `b` are then as they were.
pub fn compare(work: &mut TablesWork, first: &[u8], second: &[u8], a: &mut [u8; TABLE_MOST], b: &mut [u8; TABLE_MOST]) -> Result<Ordering, RefusedTable> {
    let mut row = [0; 3];
    // SAFETY: as in `canonical`, for two slices, which may be the same, and two buffers, which are not.
    let number = unsafe {
        raw::wivakkol_compare_on(
            first.as_ptr(),
            first.len(),
            second.as_ptr(),
            second.len(),
            a,
            b,
            &mut row,
            &mut work.rises,
            &mut work.falls,
            &mut work.names,
            &mut work.order,
        )
    };
    let [place, said, table] = row;
    Refusal::unless_zero(number, place).map_err(|refusal| RefusedTable { refusal, table: table as usize })?;
    Ok(said.cmp(&2)) // 1 before, 2 equal, 3 after
}

/// Why tables were not joined: the refusal of one of the parts, counted from 0, or 47 or 48, which are of all of them.
#[derive(Clone, Copy, PartialEq, Eq, Hash)]
pub struct RefusedJoin {
    pub refusal: Refusal,
    pub part: Option<usize>,
}

impl fmt::Display for RefusedJoin {
    fn fmt(&self, f: &mut fmt::Formatter<'_>) -> fmt::Result {
        match self.part {
            Some(part) => write!(f, "part {part}: {}", self.refusal),
            None => self.refusal.fmt(f),
        }
    }
}

error!(RefusedJoin);

/// Up to sixteen tables as one, put at the start of `out`, and its facts, which come from the parts' alone: a new thread 0 forks each part's root in the order given, joins them in reverse, and
/// ends; the parts' threads follow part by part. The parts are lent back to back in `tables`, with their `lengths`. Refused, in this order, with 47 (no part, above 16, or lengths that do not add
/// up), with a part's own number, 1 to 11, its place inside the part, or with 48 (the joined table passes a limit); `out` is then as it was.
///
/// ```
/// use wivakkol::{check, join, TablesWork, TABLE_MOST};
///
/// let part = include_bytes!("../../../examples/e.table");
/// let (mut work, mut out) = (TablesWork::new(), [0; TABLE_MOST]);
/// let (joined, facts) = join(&mut work, &[*part; 2].concat(), &[64, 64], &mut out)?;
/// assert_eq!((facts.threads, facts.peak, facts.depth), (7, 6, 13));
/// assert_eq!(check(&mut work, joined), Ok(facts));
/// # Ok::<(), wivakkol::RefusedJoin>(())
/// ```
pub fn join<'o>(work: &mut TablesWork, tables: &[u8], lengths: &[u32], out: &'o mut [u8; TABLE_MOST]) -> Result<(&'o [u8], Facts), RefusedJoin> {
    let mut row = [0; 7];
    // SAFETY: as in `canonical`; "`lengths` points to `parts` numbers", since both are of one slice, whose pointer is never NULL.
    let number = unsafe {
        raw::wivakkol_join_on(
            tables.as_ptr(),
            tables.len(),
            lengths.as_ptr(),
            lengths.len(),
            out,
            &mut row,
            &mut work.rises,
            &mut work.falls,
            &mut work.peaks,
            &mut work.depths,
        )
    };
    let [place, threads, actions, peak, depth, nested, part] = row;
    let part = if matches!(number, 47 | 48) { None } else { Some(part as usize) };
    Refusal::unless_zero(number, place).map_err(|refusal| RefusedJoin { refusal, part })?;
    let facts = Facts { threads: threads as u16, actions: actions as u16, peak, depth: depth as u16, nested: nested as u16 };
    Ok((&out[..4 + 4 * (threads + actions) as usize], facts))
}
