//! A run with its table and its memory in one value.
use crate::run::figures;
use crate::{Memory, Refusal, RefusedMemory, Run, Work};
use core::fmt;
use core::ops::DerefMut;

/// A run that has its table and its memory and borrows nothing: it may be kept in a struct or behind a lock, returned, and moved to a thread, as far as `T` and `M` may. The table is in a `Vec<u8>`,
/// a `Box<[u8]>`, an `Arc<[u8]>`, an array or whatever else gives bytes, the memory in a `Box<Memory>` or another pointer: the crate itself has no heap. [`run`](OwnedRun::run) lends the [`Run`],
/// on which all calls are made.
///
/// `T` and `M` must give the same bytes and the same memory each time; those that do not get answers about whatever they give.
///
/// ```
/// use std::thread;
/// use wivakkol::{Memory, OwnedRun, Report, Work};
///
/// let table = std::fs::read("../../examples/e.table")?;
/// let mut owned = OwnedRun::begin(table, Box::new(Memory::new()), &mut Work::new(), 2, 6)?;
/// owned.run().list(&[0, 1, 0])?;
/// let mut owned = thread::spawn(move || {
///     let report = owned.run().rounds(u32::MAX);
///     assert_eq!(report, Ok(Report::Finished { turns: 11 }));
///     owned
/// })
/// .join()
/// .expect("the thread ends");
/// assert_eq!(owned.run().highest(), 12);
/// # Ok::<(), Box<dyn std::error::Error>>(())
/// ```
pub struct OwnedRun<T, M> {
    table: T,
    memory: M,
}

/// The run's figures, without its memory and its table.
impl<T, M: DerefMut<Target = Memory>> fmt::Debug for OwnedRun<T, M> {
    fn fmt(&self, f: &mut fmt::Formatter<'_>) -> fmt::Result {
        figures("OwnedRun", &self.memory, f)
    }
}

impl<T: AsRef<[u8]>, M: DerefMut<Target = Memory>> OwnedRun<T, M> {
    /// Begins a run as [`Run::begin`] does, refused as that is; table and memory are then dropped. Where an alloc is above the quota, begin with [`Run::begin_filling`] and open with a copy of the
    /// table that runs:
    ///
    /// ```
    /// use wivakkol::{Memory, OwnedRun, Run, Work, TABLE_MOST};
    ///
    /// let (table, mut filled) = (include_bytes!("../../../examples/e.table"), [0; TABLE_MOST]);
    /// let (mut memory, mut work) = (Box::new(Memory::new()), Work::new());
    /// let runs = Run::begin_filling(table, &mut filled, &mut memory, &mut work, 2, 5)?.table().to_vec();
    /// let mut owned = OwnedRun::open(runs, memory, &mut work)?;
    /// assert_eq!((owned.run().table().len(), owned.run().quota()), (176, 5));
    /// # Ok::<(), Box<dyn std::error::Error>>(())
    /// ```
    pub fn begin(table: T, mut memory: M, work: &mut Work, p: u32, quota: u32) -> Result<OwnedRun<T, M>, Refusal> {
        Run::begin(table.as_ref(), &mut memory, work, p, quota)?;
        Ok(OwnedRun { table, memory })
    }

    /// Goes on with a run that was put away, as [`Run::open`] does. Where it is refused, with 32, table and memory come back as they were.
    pub fn open(table: T, mut memory: M, work: &mut Work) -> Result<OwnedRun<T, M>, RefusedMemory<(T, M)>> {
        match Run::open(table.as_ref(), &mut memory, work) {
            Ok(_) => Ok(OwnedRun { table, memory }),
            Err(refusal) => Err(RefusedMemory { refusal, memory: (table, memory) }),
        }
    }

    /// The run, for calls on it.
    pub fn run(&mut self) -> Run<'_> {
        Run { table: self.table.as_ref(), memory: &mut self.memory }
    }

    /// Puts the run away: its table, and the memory with the run in it.
    pub fn into_parts(self) -> (T, M) {
        (self.table, self.memory)
    }
}
