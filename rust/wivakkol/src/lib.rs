//! AsyncDF for job tables: a scheduler whose memory is bounded beforehand, for every order in which its workers take their turns; and DFDeques, whose workers have deques of their own. The calls
//! are proved; this crate calls them in the archives `libwivakkol_turn.a`, `libwivakkol.a`, `libwivakkol_tables.a`, `libwivakkol_marks.a`, `libwivakkol_deque_turn.a`, `libwivakkol_deques.a`,
//! `libwivakkol_desk.a` and `libwivakkol_pace.a`, which `python3 tools/dist.py archive wivakkol_turn` and so on write, and gives their numbers types. It has no heap, no state and no dependencies. docs/REFERENCE.md of the repository says
//! what a table is, what a turn does and which bounds hold. The features `tables`, `marks`, `deques`, `desk` and `pace` are on by default: without the first, [`join`], [`canonical`] and [`compare`]
//! are left out, and the third archive is not needed; without the second, [`Marks`] and the fourth; without the third, [`DequeRun`], [`deque_limit`] and the next two; without the fourth, [`assemble`] and
//! [`disassemble`] and the next; without the fifth, [`Pace`] and the last.
//!
//! ```
//! use wivakkol::{Memory, Report, Run, TablesWork, Work};
//!
//! let table = include_bytes!("../../../examples/e.table");
//! let (mut memory, mut work) = (Memory::new(), Work::new());
//! let quota = wivakkol::largest_quota(&mut TablesWork::new(), table, 2, 1, 55)?;
//! let mut run = Run::begin(table, &mut memory, &mut work, 2, quota)?;
//! assert_eq!(run.rounds(u32::MAX)?, Report::Finished { turns: 14 });
//! assert_eq!(run.highest(), 12);
//! # Ok::<(), Box<dyn std::error::Error>>(())
//! ```
//!
//! What C has to keep to by itself is kept here by types: sizes, alignment, what overlaps what, one call at a time, and the same unchanged table for every call on a run. One thing is not: the
//! stack. From C the calls behind [`check`], [`largest_quota`] and [`most_turns`] took up to 1,512 bytes of it, [`limit`] and [`fit`] 2,120, [`Run::begin`] 3,848, [`Run::open`] 6,136,
//! [`Run::wall_line`] 6,440, a single turn 112, [`origin`] 160, the others under 310; [`canonical`] and [`compare`] up to 1,368, [`join`] up to 1,544; [`Run::mark`] and [`Run::back`] up to 5,432;
//! [`DequeRun::turn`] 160, [`DequeRun::list`] 192, [`DequeRun::open`] 8,144, [`deque_limit`] 1,968; [`assemble`] up to 1,544, [`disassemble`] up to 3,512;
//! those of a [`Paced`] up to 288.
//! That the declarations fit the archives is tested and not proved.
#![no_std]
#![deny(unsafe_op_in_unsafe_fn)]

#[cfg(not(target_arch = "x86_64"))]
compile_error!("the archive is built for x86-64 alone");

mod builder;
#[cfg(feature = "deques")]
mod deques;
#[cfg(feature = "desk")]
mod desk;
mod limits;
#[cfg(feature = "marks")]
mod marks;
mod memory;
mod owned;
#[cfg(feature = "pace")]
mod pace;
mod raw;
mod refusal;
mod run;
#[cfg(feature = "tables")]
mod tables;

pub use builder::{Builder, NotBuilt, Thread};
#[cfg(feature = "deques")]
pub use deques::{deque_limit, Deque, DequeLimits, DequeRun};
#[cfg(feature = "desk")]
pub use desk::{assemble, disassemble, Expected, NotAssembled, NotListed, Unseen, TEXT_LONGEST, TEXT_MOST};
pub use limits::{fit, limit, Fit, Limits};
#[cfg(feature = "marks")]
pub use marks::{Marks, MarksWork};
pub use memory::{LimitWork, Memory, TablesWork, Work};
pub use owned::OwnedRun;
#[cfg(feature = "pace")]
pub use pace::{Pace, Paced};
pub use refusal::{Place, Refusal};
pub use run::{Preview, RefusedMemory, Reply, Report, Run, Status, Stopped, Turn};
#[cfg(feature = "tables")]
pub use tables::{canonical, compare, join, RefusedJoin, RefusedTable};

/// The longest table that is accepted, in bytes: 1,024 threads and 8,192 actions. A longer input may be handed over, and is refused.
pub const TABLE_MOST: usize = 36868;

/// The most threads of a table.
pub const MOST_THREADS: usize = 1024;

/// The most workers of a run.
pub const MOST_WORKERS: usize = 16;

/// No action, of an origin: a table has at most 65,535.
const NO_ACTION: u16 = 65535;

/// A table's facts.
#[derive(Clone, Copy, Debug, PartialEq, Eq, Hash)]
pub struct Facts {
    /// n, 1 to 1,024.
    pub threads: u16,
    /// m, 1 to 8,192.
    pub actions: u16,
    /// S1, the most memory that a serial run holds.
    pub peak: u64,
    /// D.
    pub depth: u16,
    /// N, the nested thread levels.
    pub nested: u16,
}

/// What an action of a table is, with its argument.
#[derive(Clone, Copy, Debug, PartialEq, Eq, Hash)]
pub enum Action {
    End,
    Work,
    Alloc { amount: u32 },
    Free { amount: u32 },
    Fork { child: u16 },
    Join { child: u16 },
}

/// Action `a` of a table; `None` where it has no such action. In bytes that [`check`] refuses, what is none of the six kinds, or names a child above 16 bits, is no action either.
///
/// ```
/// use wivakkol::{action, Action};
///
/// let table = include_bytes!("../../../examples/e.table");
/// assert_eq!(action(table, 5), Some(Action::Alloc { amount: 6 }));
/// assert_eq!(action(table, 12), None);
/// ```
pub fn action(table: &[u8], a: u64) -> Option<Action> {
    // SAFETY: "`table` points to `length` bytes that may be read", since both are of one slice, whose pointer is never NULL; nothing is written.
    let (kind, argument) = unsafe { (raw::wivakkol_kind(table.as_ptr(), table.len(), a), raw::wivakkol_argument(table.as_ptr(), table.len(), a)) };
    Some(match kind {
        0 => Action::End,
        1 => Action::Work,
        2 => Action::Alloc { amount: argument },
        3 => Action::Free { amount: argument },
        4 => Action::Fork { child: u16::try_from(argument).ok()? },
        5 => Action::Join { child: u16::try_from(argument).ok()? },
        _ => return None,
    })
}

/// Which action of the table as given action `a` of the table that runs with this quota is, so that whoever does the actions finds what to do also where an alloc is above the quota and the
/// filled-out table runs; `None` for what was put in, dummies with their forks and joins, and where there is no such action or quota. Each action as given is the origin of exactly one, of the same kind,
/// argument and thread, in order. It is read off the table that runs, all of which it looks at.
///
/// ```
/// use wivakkol::{Memory, Run, Work};
///
/// let table = include_bytes!("../../../examples/e.table");
/// let (mut memory, mut filled, mut work) = (Memory::new(), [0; 176], Work::new());
/// let run = Run::begin_filling(table, &mut filled, &mut memory, &mut work, 2, 5)?;
/// assert_eq!((run.origin(7), run.action(7)), (Some(5), wivakkol::action(table, 5)));
/// assert_eq!(run.origin(5), None);
/// assert_eq!(wivakkol::origin(table, 6, 5), Some(5));
/// # Ok::<(), wivakkol::Refusal>(())
/// ```
pub fn origin(table: &[u8], quota: u32, a: u64) -> Option<u16> {
    // SAFETY: as in `action`.
    let origin = unsafe { raw::wivakkol_origin(table.as_ptr(), table.len(), quota, a) };
    u16::try_from(origin).ok().filter(|&origin| origin != NO_ACTION)
}

/// Is this a job table, and what are its facts? Refused with 1 to 11.
pub fn check(work: &mut TablesWork, table: &[u8]) -> Result<Facts, Refusal> {
    let mut row = [0; 6];
    // SAFETY: "`table` points to `length` bytes that may be read", since both are of one slice, whose pointer is never NULL; the row is a local array of its full size, and the working memory
    // fields of one `&mut TablesWork`, so that nothing overlaps and nobody else touches them. Its content does not matter.
    let number = unsafe { raw::wivakkol_check_on(table.as_ptr(), table.len(), &mut row, &mut work.rises, &mut work.falls, &mut work.peaks, &mut work.depths) };
    let [place, threads, actions, peak, depth, nested] = row;
    Refusal::unless_zero(number, place)?;
    Ok(Facts { threads: threads as u16, actions: actions as u16, peak, depth: depth as u16, nested: nested as u16 })
}

/// The largest quota with which `p` workers hold no more than `memory` units of this table, as long as no worker has more than `b` turns between two of another. Refused with 1 to 11, 20,
/// 41 or 42.
pub fn largest_quota(work: &mut TablesWork, table: &[u8], p: u32, b: u32, memory: u64) -> Result<u32, Refusal> {
    let mut row = [0; 2];
    // SAFETY: as in `check`.
    let number = unsafe {
        raw::wivakkol_quota_on(table.as_ptr(), table.len(), p, b, memory, &mut row, &mut work.rises, &mut work.falls, &mut work.peaks, &mut work.depths)
    };
    let [place, quota] = row;
    Refusal::unless_zero(number, place)?;
    Ok(quota as u32)
}

/// How many turns a run of `p` workers with this quota takes at most: `p * (m + A + J)`, with the actions, allocs and joins of the table that runs, filled out where an alloc is above the
/// quota. [`Run::rounds`] with this limit always finishes. At most 262,144. Refused with 1 to 11, 20, 21 or 44, as a beginning is.
pub fn most_turns(work: &mut TablesWork, table: &[u8], p: u32, quota: u32) -> Result<u32, Refusal> {
    let mut row = [0; 2];
    // SAFETY: as in `check`.
    let number = unsafe { raw::wivakkol_most_on(table.as_ptr(), table.len(), p, quota, &mut row, &mut work.rises, &mut work.falls) };
    let [place, limit] = row;
    Refusal::unless_zero(number, place)?;
    Ok(limit as u32)
}
