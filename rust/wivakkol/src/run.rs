//! A run: a table and the memory that it stands in, tied to each other.
use crate::refusal::error;
#[cfg(feature = "marks")]
use crate::{Marks, MarksWork};
use crate::{Memory, Refusal, Work};
use core::fmt;
use core::ops::DerefMut;

/// No thread, in the links of a list.
pub(crate) const NO_THREAD: u16 = 1024;

/// What both kinds of run show of the memory that they stand in.
macro_rules! readers {
    () => {
        /// The bytes of the table that runs: those as given, or of the filled-out table.
        pub fn table(&self) -> &'t [u8] {
            self.table
        }

        /// Action `action` of the table that runs, as [`Reply::Done`] names it; `None` where there is none.
        pub fn action(&self, action: u16) -> Option<$crate::Action> {
            $crate::action(self.table, u64::from(action))
        }

        /// The action of the table as given that action `action` of the table that runs is; `None` where it was put in, since an alloc is above the quota, or where there is none
        /// ([`origin`](crate::origin)).
        pub fn origin(&self, action: u16) -> Option<u16> {
            $crate::origin(self.table, self.quota(), u64::from(action))
        }

        /// The number of workers, p.
        pub fn workers(&self) -> u32 {
            self.memory.settings()[0]
        }

        /// The quota, K.
        pub fn quota(&self) -> u32 {
            self.memory.settings()[1]
        }

        /// Memory held now.
        pub fn held(&self) -> u64 {
            self.memory.totals()[0]
        }

        /// The most memory held so far.
        pub fn highest(&self) -> u64 {
            self.memory.totals()[1]
        }

        /// The turns taken so far.
        pub fn turns(&self) -> u64 {
            self.memory.totals()[2]
        }

        /// Whether the root has ended: the run is over.
        pub fn ended(&self) -> bool {
            self.memory.ended()
        }

        /// Where a thread stands; `None` from 1,024 on. Threads that the table does not have are unborn.
        pub fn status(&self, thread: u16) -> Option<Status> {
            Some(match self.memory.status().get(usize::from(thread))? {
                1 => Status::Ready,
                2 => Status::Held,
                3 => Status::Waiting,
                4 => Status::Ended,
                _ => Status::Unborn,
            })
        }

        /// The memory that a thread holds; `None` from 1,024 on.
        pub fn amount(&self, thread: u16) -> Option<u64> {
            self.memory.amounts().get(usize::from(thread)).copied()
        }

        /// A thread's next action; `None` from 1,024 on.
        pub fn next_action(&self, thread: u16) -> Option<u16> {
            self.memory.next().get(usize::from(thread)).copied()
        }

        /// The thread that worker `w` holds and its quota left, if it holds one.
        pub fn worker(&self, w: u32) -> Option<(u16, u32)> {
            let w = usize::try_from(w).ok()?;
            let holds = *self.memory.holds().get(w)? != 0;
            holds.then(|| (self.memory.threads()[w], self.memory.quotas()[w]))
        }
    };
}

#[cfg(feature = "deques")]
pub(crate) use readers;

/// What a turn said.
#[derive(Clone, Copy, Debug, PartialEq, Eq, Hash)]
pub enum Reply {
    /// No thread was ready; by DFDeques, there was none to steal at the place chosen.
    Idle,
    /// The action was done; [`Run::action`] says what it is.
    Done { thread: u16, action: u16 },
    /// An alloc was above the quota left: the worker gave its thread up; by DFDeques, with its deque.
    Quota { thread: u16, wanted: u32 },
    /// A join whose child has not ended: the thread waits, and the worker has none; by DFDeques, it goes on with the top of its deque.
    Wait { thread: u16, child: u16 },
}

/// A turn that was taken: what it said, and how many threads stood left of one that the worker took, 0 if it took none.
#[derive(Clone, Copy, Debug, PartialEq, Eq, Hash)]
pub struct Turn {
    pub reply: Reply,
    pub passed: u16,
}

/// A turn shown before it is taken: what it would say, and memory held, its highest and the worker's quota left after it, 0 if it then has no thread.
#[derive(Clone, Copy, Debug, PartialEq, Eq, Hash)]
pub struct Preview {
    pub turn: Turn,
    pub held: u64,
    pub highest: u64,
    pub quota: u32,
}

/// How turns over a list or in rounds ended, with the number of turns that the call took.
#[derive(Clone, Copy, Debug, PartialEq, Eq, Hash)]
pub enum Report {
    /// The root has ended: the run is over.
    Finished { turns: u64 },
    /// The order or the limit is at its end, and the root has not ended.
    Spent { turns: u64 },
}

/// A refusal that stopped turns over a list or in rounds, and how many were taken before it.
#[derive(Clone, Copy, PartialEq, Eq, Hash)]
pub struct Stopped {
    pub refusal: Refusal,
    pub turns: u64,
}

impl fmt::Display for Stopped {
    fn fmt(&self, f: &mut fmt::Formatter<'_>) -> fmt::Result {
        write!(f, "{} (after {} turns)", self.refusal, self.turns)
    }
}

error!(Stopped);

/// Where a thread stands.
#[derive(Clone, Copy, Debug, PartialEq, Eq, Hash)]
pub enum Status {
    Unborn,
    Ready,
    Held,
    Waiting,
    Ended,
}

/// Memory in which no run was opened, handed back as it was, with its table by [`OwnedRun::open`](crate::OwnedRun::open), and why.
pub struct RefusedMemory<M> {
    pub refusal: Refusal,
    pub memory: M,
}

impl<M> fmt::Display for RefusedMemory<M> {
    fn fmt(&self, f: &mut fmt::Formatter<'_>) -> fmt::Result {
        self.refusal.fmt(f)
    }
}

error!(RefusedMemory<M>, M);

/// A run that was begun or opened. It borrows its table, so that every call is given the same bytes and nobody changes them meanwhile, and its memory, so that nobody else touches that; both are
/// free again when the run is dropped. Where `M` is a box or a lock's guard ([`open_in`](Run::open_in)), the run has that instead of a borrow, and [`into_memory`](Run::into_memory) hands it back.
///
/// ```compile_fail,E0506
/// # use wivakkol::{Memory, Run, Work};
/// let (mut table, mut memory) = ([1, 0, 1, 0, 0, 0, 1, 0, 0, 0, 0, 0], Memory::new());
/// let mut run = Run::begin(&table, &mut memory, &mut Work::new(), 1, 1)?;
/// table[8] = 1; // not while the run is there
/// run.turn(0)?;
/// # Ok::<(), wivakkol::Refusal>(())
/// ```
pub struct Run<'t, M = &'t mut Memory> {
    pub(crate) table: &'t [u8],
    pub(crate) memory: M,
}

/// The run's figures, without its memory and its table.
impl<M: DerefMut<Target = Memory>> fmt::Debug for Run<'_, M> {
    fn fmt(&self, f: &mut fmt::Formatter<'_>) -> fmt::Result {
        figures("Run", &self.memory, f)
    }
}

pub(crate) fn figures(name: &str, memory: &Memory, f: &mut fmt::Formatter<'_>) -> fmt::Result {
    let ([workers, quota], [held, highest, turns]) = (memory.settings(), memory.totals());
    f.debug_struct(name)
        .field("workers", workers)
        .field("quota", quota)
        .field("turns", turns)
        .field("held", held)
        .field("highest", highest)
        .field("ended", &memory.ended())
        .finish_non_exhaustive()
}

impl<'t> Run<'t> {
    /// Begins a run of `p` workers with quota `quota` in this memory, whatever it held. Refused with 1 to 11 (the table's own), 20, 21, 44, or 61 where an alloc is above the quota, for which
    /// [`begin_filling`](Run::begin_filling) has room; the memory is then all 0.
    pub fn begin(table: &'t [u8], memory: &'t mut Memory, work: &mut Work, p: u32, quota: u32) -> Result<Run<'t>, Refusal> {
        Run::begin_filling(table, &mut [], memory, work, p, quota)
    }

    /// Begins a run whose table may have allocs above the quota: where it has, the filled-out table is put at the start of `filled`, and that is the one that runs ([`table`](Run::table)). Refused
    /// with 1 to 11, 20, 21, 44 (the filled-out table would pass a limit) or 61 (`filled` is too short for it; never with [`TABLE_MOST`](crate::TABLE_MOST) bytes); `filled` is then as it was,
    /// and the memory all 0. To go on with such a run later, keep the bytes of its table: [`open`](Run::open) is given them.
    pub fn begin_filling(table: &'t [u8], filled: &'t mut [u8], memory: &'t mut Memory, work: &mut Work, p: u32, quota: u32) -> Result<Run<'t>, Refusal> {
        let (number, [place, bytes]) = memory.begin(work, table, filled, p, quota);
        Refusal::unless_zero(number, place)?;
        let filled: &'t [u8] = filled;
        let table = if bytes == 0 { table } else { &filled[..bytes as usize] };
        Ok(Run { table, memory })
    }

    /// Goes on with a run that was put away, in the memory that it was brought back to, with the table that ran. Refused with 32, and the memory left as it was, where that has neither a sound record of this table nor
    /// the blank one, all 0: a run opened from the latter has no workers, and every turn of it is refused with 30.
    ///
    /// The limits on memory and on threads are promised where the run was begun from this table and the memory is as calls left it. A sound record that was made up may hold more than any run
    /// would; its turns are document 01's all the same.
    pub fn open(table: &'t [u8], memory: &'t mut Memory, work: &mut Work) -> Result<Run<'t>, Refusal> {
        Run::open_in(table, memory, work).map_err(|refused| refused.refusal)
    }
}

impl<'t, M: DerefMut<Target = Memory>> Run<'t, M> {
    /// [`open`](Run::open) for memory that the run is to have and not only to borrow, such as a `Box<Memory>`: the run may then be kept or returned where no memory stays behind to borrow from; with its table too, it is an [`OwnedRun`](crate::OwnedRun).
    /// Where it is refused, with 32, the memory comes back as it was. `M` must give the same memory each time; one that does not gets answers about whatever it gives.
    ///
    /// ```
    /// use wivakkol::{Memory, Run, Work};
    ///
    /// fn start(table: &[u8]) -> Result<Run<'_, Box<Memory>>, Box<dyn std::error::Error>> {
    ///     let (mut memory, mut work) = (Box::new(Memory::new()), Work::new());
    ///     Run::begin(table, &mut memory, &mut work, 2, 6)?;
    ///     Ok(Run::open_in(table, memory, &mut work)?)
    /// }
    ///
    /// let mut run = start(include_bytes!("../../../examples/e.table"))?;
    /// run.list(&[0, 1, 0])?;
    /// let (table, memory) = (run.table(), run.into_memory()); // put away: the box is ours
    /// let run = Run::open_in(table, memory, &mut Work::new())?; // and taken up
    /// assert_eq!(run.turns(), 3);
    /// # Ok::<(), Box<dyn std::error::Error>>(())
    /// ```
    pub fn open_in(table: &'t [u8], mut memory: M, work: &mut Work) -> Result<Run<'t, M>, RefusedMemory<M>> {
        let (number, [place]) = memory.open(work, table);
        match Refusal::unless_zero(number, place) {
            Ok(()) => Ok(Run { table, memory }),
            Err(refusal) => Err(RefusedMemory { refusal, memory }),
        }
    }

    /// Puts the run away: its memory, with the run in it, handed back as it was lent, a box as the box. [`open`](Run::open) or [`open_in`](Run::open_in) goes on with it, with the same
    /// [`table`](Run::table).
    pub fn into_memory(self) -> M {
        self.memory
    }

    /// A turn of worker `w`. Refused, with nothing changed: 32 if 2^64 − 1 turns are taken, 30 if `w` is not below p, 31 if the root has ended.
    pub fn turn(&mut self, w: u32) -> Result<Turn, Refusal> {
        let (number, [place, said, thread, value, passed]) = self.memory.turn(self.table, w);
        Refusal::unless_zero(number, place)?;
        Ok(Turn { reply: reply(said, thread, value), passed: passed as u16 })
    }

    /// The turn of worker `w` that [`turn`](Run::turn) would take now, refused as it would be; nothing changes.
    pub fn preview(&self, w: u32) -> Result<Preview, Refusal> {
        let (number, [place, said, thread, value, passed, held, highest, quota]) = self.memory.preview(self.table, w);
        Refusal::unless_zero(number, place)?;
        Ok(Preview { turn: Turn { reply: reply(said, thread, value), passed: passed as u16 }, held, highest, quota: quota as u32 })
    }

    /// The run's line of the wall chart, 84 characters and a newline (N5): turns taken, each worker's thread or a full stop, memory held. Refused with 32 if 2^64 − 1 turns are taken, with 43
    /// if more than 999,999 are.
    pub fn wall_line(&self, work: &mut Work) -> Result<[u8; 85], Refusal> {
        let (number, line) = self.memory.chart(work, self.table);
        Refusal::unless_zero(number, 0)?;
        Ok(line)
    }

    /// A turn of each worker of `order`, up to the root's end. Stopped by a turn that is refused, with 30 or 32; those before it are taken.
    pub fn list(&mut self, order: &[u8]) -> Result<Report, Stopped> {
        report(self.memory.list(self.table, order))
    }

    /// Turns of the workers 0 to p − 1, again and again, up to the root's end, at most `limit` of them; every call starts with worker 0.
    pub fn rounds(&mut self, limit: u32) -> Result<Report, Stopped> {
        report(self.memory.rounds(self.table, limit))
    }

    /// Sets mark `i` to the run as it is; a mark that was set is replaced. Refused, with the marks as they were: 32 if the run or a set mark, also the one to be replaced, is neither a sound record
    /// of this table nor the blank one, then 45 if `i` is above 7.
    #[cfg(feature = "marks")]
    pub fn mark(&self, marks: &mut Marks, work: &mut MarksWork, i: u32) -> Result<(), Refusal> {
        Refusal::unless_zero(self.memory.mark(marks, work, self.table, i), 0)
    }

    /// Goes back to mark `i`: the run is what it was when the mark was set, turns and highest memory too, and the marks stay as they are. Refused, with the run as it was: 32 and 45 as
    /// [`mark`](Run::mark) is, then 46 if mark `i` is not set.
    ///
    /// The limits hold on, for the turns that led to the mark and those since, where they held for the run and the mark was set by it; of a mark that [`Marks::put`] made, what
    /// [`open`](Run::open) says of a record made up is true.
    #[cfg(feature = "marks")]
    pub fn back(&mut self, marks: &Marks, work: &mut MarksWork, i: u32) -> Result<(), Refusal> {
        Refusal::unless_zero(self.memory.back(marks, work, self.table, i), 0)
    }

    readers!();

    /// The list of the threads that are forked and not ended, leftmost first, which is serial order.
    pub fn threads(&self) -> impl Iterator<Item = u16> + '_ {
        let in_list = |t: u16| (t < NO_THREAD).then_some(t);
        // the blank record, which alone has no workers, has 0 for every neighbour and an empty list
        let first = if self.workers() == 0 { NO_THREAD } else { self.memory.heads()[0] };
        let right = self.memory.right();
        core::iter::successors(in_list(first), move |t| in_list(right[usize::from(*t)]))
    }
}

pub(crate) fn reply(said: u64, thread: u64, value: u64) -> Reply {
    let thread = thread as u16;
    match said {
        1 => Reply::Idle,
        2 => Reply::Done { thread, action: value as u16 },
        3 => Reply::Quota { thread, wanted: value as u32 },
        4 => Reply::Wait { thread, child: value as u16 },
        _ => unreachable!("a turn says 1 to 4"),
    }
}

pub(crate) fn report((number, [place, said, turns]): (u32, [u64; 3])) -> Result<Report, Stopped> {
    Refusal::unless_zero(number, place).map_err(|refusal| Stopped { refusal, turns })?;
    match said {
        6 => Ok(Report::Finished { turns }),
        7 => Ok(Report::Spent { turns }),
        _ => unreachable!("a run says 6 or 7"),
    }
}
