//! The useful limit of a table, and the quota that fits a board by it.
use crate::{raw, LimitWork, Refusal};

/// What is said of the table that runs, with p, K and b.
#[derive(Clone, Copy, Debug, PartialEq, Eq, Hash)]
pub struct Limits {
    /// The useful limit: no [`Run`](crate::Run) with these p and K holds more: for b 1 or more as long as no worker has more than b turns between two of another, for b 0 in every order.
    pub memory: u64,
    /// S1, the most memory that a serial run holds.
    pub serial: u64,
    /// S_p: no [`Run`](crate::Run) of p workers holds more, whatever K and b.
    pub peak: u64,
    /// The parallel peak: no run of either kind holds more, whatever p.
    pub parallel: u64,
    /// The most that a stretch draws under K.
    pub stretch: u64,
}

/// The quota for a board.
#[derive(Clone, Copy, Debug, PartialEq, Eq, Hash)]
pub enum Fit {
    /// The largest quota whose useful limit is at most the memory there is, and that limit.
    Fits { quota: u32, memory: u64 },
    /// None is: the least that any quota needs, and the least such quota.
    Short { quota: u32, memory: u64 },
}

/// The useful limit of the table that runs with `p` workers and this quota, and what it is made of. Where an alloc is above the quota, the filled-out table is put at the start of `filled`; else
/// `filled` is not looked at and may be empty. With `b` 0 nothing is said of the turns between two of a worker. Refused with 1 to 11, 20, 41, 21, 44, or 61 where `filled` has too little room,
/// which never comes with [`TABLE_MOST`](crate::TABLE_MOST) bytes.
///
/// ```
/// use wivakkol::{limit, LimitWork};
///
/// let table = include_bytes!("../../../examples/e.table");
/// let limits = limit(&mut LimitWork::new(), table, &mut [], 2, 6, 1)?;
/// assert_eq!((limits.memory, limits.serial, limits.peak, limits.parallel, limits.stretch), (12, 6, 12, 12, 6));
/// # Ok::<(), wivakkol::Refusal>(())
/// ```
pub fn limit(work: &mut LimitWork, table: &[u8], filled: &mut [u8], p: u32, quota: u32, b: u32) -> Result<Limits, Refusal> {
    let mut row = [0; 6];
    // SAFETY: "`table` points to `length` bytes that may be read", since both are of one slice, whose pointer is never NULL, and likewise "`filled` points to `room` bytes that may be written"; the
    // row is a local array of its full size, and the working memory fields of one `&mut LimitWork`, so that nothing overlaps and nobody else touches them. Its content does not matter.
    let number = unsafe {
        raw::wivakkol_limit_on(
            table.as_ptr(),
            table.len(),
            p,
            quota,
            b,
            &mut row,
            &mut work.rises,
            &mut work.falls,
            &mut work.serials,
            &mut work.depths,
            &mut work.peaks,
            &mut work.rows,
            filled.as_mut_ptr(),
            filled.len(),
        )
    };
    let [place, memory, serial, peak, parallel, stretch] = row;
    Refusal::unless_zero(number, place)?;
    Ok(Limits { memory, serial, peak, parallel, stretch })
}

/// The largest quota, from the table's largest alloc up, whose useful limit with `p` and `b` is at most `memory`; or how much the quota that needs the least does. Refused with 1 to 11, 20 or 41.
pub fn fit(work: &mut LimitWork, table: &[u8], p: u32, b: u32, memory: u64) -> Result<Fit, Refusal> {
    let mut row = [0; 4];
    // SAFETY: as in `limit`, without `filled`.
    let number = unsafe {
        raw::wivakkol_fit_on(
            table.as_ptr(),
            table.len(),
            p,
            b,
            memory,
            &mut row,
            &mut work.rises,
            &mut work.falls,
            &mut work.serials,
            &mut work.depths,
            &mut work.peaks,
            &mut work.rows,
        )
    };
    let [place, fits, quota, memory] = row;
    Refusal::unless_zero(number, place)?;
    let quota = quota as u32;
    Ok(if fits == 1 { Fit::Fits { quota, memory } } else { Fit::Short { quota, memory } })
}
