//! Runs by DFDeques (N13), in the archives `libwivakkol_deque_turn.a` and `libwivakkol_deques.a`: the feature `deques`.
use crate::run::{readers, reply, report, NO_THREAD};
use crate::{raw, LimitWork, Memory, Refusal, RefusedMemory, Reply, Report, Run, Status, Stopped, Work};
use core::ops::DerefMut;

/// What a [`DequeRun`] that is begun stays within, from the table that runs, with p, K and c.
#[derive(Clone, Copy, Debug, PartialEq, Eq, Hash)]
pub struct DequeLimits {
    /// No [`DequeRun`] begun with these p and K holds more where every choice of its turns is below c, whatever the order of the workers.
    pub memory: u64,
    /// The same where every choice is 0, whatever c.
    pub near: u64,
}

/// What a run by DFDeques of `p` workers with this quota stays within where every choice is below `c`, and where every choice is 0. Where an alloc is above the quota, the filled-out table is put
/// at the start of `filled`; else `filled` is not looked at and may be empty. Refused with 1 to 11, 20, 49 where `c` is not 1 to p, 21, 44, or 61 where `filled` has too little room, which never
/// comes with [`TABLE_MOST`](crate::TABLE_MOST) bytes.
///
/// ```
/// use wivakkol::{deque_limit, DequeRun, LimitWork, Memory, Work};
///
/// let table = include_bytes!("../../../examples/e.table");
/// let limits = deque_limit(&mut LimitWork::new(), table, &mut [], 2, 6, 1)?;
/// assert_eq!((limits.memory, limits.near), (12, 12));
/// let (mut memory, mut work) = (Memory::new(), Work::new());
/// let mut run = DequeRun::begin(table, &mut memory, &mut work, 2, 6)?;
/// run.list(&[0, 0, 1, 0].repeat(8))?; // workers 0 and 1 by turns, every choice 0
/// assert!(run.highest() <= limits.memory);
/// # Ok::<(), Box<dyn std::error::Error>>(())
/// ```
pub fn deque_limit(work: &mut LimitWork, table: &[u8], filled: &mut [u8], p: u32, quota: u32, c: u32) -> Result<DequeLimits, Refusal> {
    let mut row = [0; 3];
    // SAFETY: "`table` points to `length` bytes that may be read", since both are of one slice, whose pointer is never NULL, and likewise "`filled` points to `room` bytes that may be written"; the
    // row is a local array of its full size, and the working memory fields of one `&mut LimitWork`, so that nothing overlaps and nobody else touches them. Its content does not matter.
    let number = unsafe {
        raw::wivakkol_deque_limit_on(
            table.as_ptr(),
            table.len(),
            p,
            quota,
            c,
            &mut row,
            &mut work.rises,
            &mut work.falls,
            &mut work.serials,
            &mut work.depths,
            &mut work.peaks,
            &mut work.rows,
            filled.as_mut_ptr(),
            filled.len(),
        )
    };
    let [place, memory, near] = row;
    Refusal::unless_zero(number, place)?;
    Ok(DequeLimits { memory, near })
}

/// A run by DFDeques, the second scheduler: each worker has a deque of its own, goes on with the child at a fork, and where it has no thread steals from the bottom of the deque that the turn
/// chooses. It borrows its table and its memory as a [`Run`] does. It is a type of its own, since the calls of the two kinds must not be mixed: rounds, previews, wall lines and marks are those of
/// a [`Run`] alone, and so are the limits on threads and turns; on memory it has limits of its own (docs/REFERENCE.md, DFDeques).
///
/// ```
/// use wivakkol::{DequeRun, Memory, Reply, Report, Work};
///
/// let table = include_bytes!("../../../examples/e.table");
/// let (mut memory, mut work) = (Memory::new(), Work::new());
/// let mut run = DequeRun::begin(table, &mut memory, &mut work, 2, 6)?;
/// assert_eq!(run.turn(0, 0)?, Reply::Done { thread: 0, action: 0 }); // steals the root, which forks thread 1 and goes on top
/// assert_eq!(run.worker(0), Some((1, 6)));
/// assert_eq!(run.turn(1, 0)?, Reply::Done { thread: 0, action: 1 }); // robs worker 0 of the root
/// let deques: Vec<_> = run.deques().map(|deque| (deque.owner(), deque.threads().collect::<Vec<_>>())).collect();
/// assert_eq!(deques, [(Some(0), vec![]), (Some(1), vec![0])]);
/// assert_eq!(run.list(&[0, 0, 1, 0].repeat(6))?, Report::Finished { turns: 12 });
/// assert_eq!(run.highest(), 12);
/// # Ok::<(), Box<dyn std::error::Error>>(())
/// ```
///
/// ```compile_fail,E0599
/// # use wivakkol::{DequeRun, Memory, Work};
/// let (table, mut memory) = ([1, 0, 1, 0, 0, 0, 1, 0, 0, 0, 0, 0], Memory::new());
/// let mut run = DequeRun::begin(&table, &mut memory, &mut Work::new(), 1, 1)?;
/// run.rounds(1)?; // a call of the other kind
/// # Ok::<(), Box<dyn std::error::Error>>(())
/// ```
pub struct DequeRun<'t, M = &'t mut Memory> {
    table: &'t [u8],
    memory: M,
}

impl<'t> DequeRun<'t> {
    /// Begins a run of `p` workers with quota `quota` in this memory, whatever it held. Refused with 1 to 11 (the table's own), 20, 21, 44, or 61 where an alloc is above the quota, for which
    /// [`begin_filling`](DequeRun::begin_filling) has room; the memory is then all 0.
    pub fn begin(table: &'t [u8], memory: &'t mut Memory, work: &mut Work, p: u32, quota: u32) -> Result<DequeRun<'t>, Refusal> {
        DequeRun::begin_filling(table, &mut [], memory, work, p, quota)
    }

    /// Begins a run whose table may have allocs above the quota, as [`Run::begin_filling`] does: the filled-out table is put at the start of `filled`, and that is the one that runs. Refused with
    /// 1 to 11, 20, 21, 44 or 61; `filled` is then as it was, and the memory all 0.
    pub fn begin_filling(table: &'t [u8], filled: &'t mut [u8], memory: &'t mut Memory, work: &mut Work, p: u32, quota: u32) -> Result<DequeRun<'t>, Refusal> {
        let Run { table, memory } = Run::begin_filling(table, filled, memory, work, p, quota)?; // the beginning is the same for both kinds
        Ok(DequeRun { table, memory })
    }

    /// Goes on with a run that was put away, in the memory that it was brought back to, with the table that ran. Refused with 32, and the memory left as it was, where that has neither a sound
    /// record of DFDeques for this table nor the blank one, all 0: a run opened from the latter has no workers, and every turn of it is refused with 30.
    pub fn open(table: &'t [u8], memory: &'t mut Memory, work: &mut Work) -> Result<DequeRun<'t>, Refusal> {
        DequeRun::open_in(table, memory, work).map_err(|refused| refused.refusal)
    }
}

impl<'t, M: DerefMut<Target = Memory>> DequeRun<'t, M> {
    /// [`open`](DequeRun::open) for memory that the run is to have and not only to borrow, such as a `Box<Memory>`, as [`Run::open_in`] does it.
    pub fn open_in(table: &'t [u8], mut memory: M, work: &mut Work) -> Result<DequeRun<'t, M>, RefusedMemory<M>> {
        let (number, [place]) = memory.deque_open(work, table);
        match Refusal::unless_zero(number, place) {
            Ok(()) => Ok(DequeRun { table, memory }),
            Err(refusal) => Err(RefusedMemory { refusal, memory }),
        }
    }

    /// Puts the run away: its memory, with the run in it, handed back as it was lent, a box as the box. [`open`](DequeRun::open) or [`open_in`](DequeRun::open_in) goes on with it, with the same
    /// [`table`](DequeRun::table); [`Run::open`] must not, though it may take the memory for an AsyncDF run's: the deques would be lost.
    pub fn into_memory(self) -> M {
        self.memory
    }

    /// A turn of worker `w`; where it holds no thread, it steals from the deque at place `choice` from the left, counted from 0. Refused, with nothing changed: 32 if 2^64 − 1 turns are taken, 30 if
    /// `w` is not below p, 31 if the root has ended, 49 if `choice` is not below p, also where `w` holds a thread.
    pub fn turn(&mut self, w: u32, choice: u32) -> Result<Reply, Refusal> {
        let (number, [place, said, thread, value, _]) = self.memory.deque_turn(self.table, w, choice);
        Refusal::unless_zero(number, place)?;
        Ok(reply(said, thread, value))
    }

    /// A turn of each worker and choice of `order`, two bytes a turn, up to the root's end; an odd last byte is not looked at. Stopped by a turn that is refused, with 30, 49 or 32; those before it
    /// are taken.
    pub fn list(&mut self, order: &[u8]) -> Result<Report, Stopped> {
        report(self.memory.deque_list(self.table, order))
    }

    /// The deques from the left.
    pub fn deques(&self) -> impl Iterator<Item = Deque<'_>> {
        let memory: &Memory = &self.memory;
        let deque = move |first: u16| (first < NO_THREAD).then_some(Deque { memory, first });
        // the blank record, which alone has no workers, has 0 for every neighbour and no deque
        let first = if self.workers() == 0 { NO_THREAD } else { memory.heads()[0] };
        core::iter::successors(deque(first), move |before| deque(memory.right()[usize::from(before.line().last()?)]))
    }

    readers!();
}

/// A deque of a run: it has an owner or a thread.
#[derive(Clone, Copy)]
pub struct Deque<'r> {
    memory: &'r Memory,
    first: u16,
}

impl<'r> Deque<'r> {
    /// The worker that owns it, if one does.
    pub fn owner(&self) -> Option<u32> {
        let holds = |w: &usize| self.memory.holds()[*w] != 0 && self.memory.threads()[*w] == self.first;
        (0..16).find(holds).map(|w| w as u32)
    }

    /// Its threads, the top first; the one that its owner holds is not among them.
    pub fn threads(&self) -> impl Iterator<Item = u16> + 'r {
        self.line().skip(usize::from(self.owner().is_some()))
    }

    /// Its line: the thread that its owner holds, then its threads; the last is a bottom.
    fn line(&self) -> impl Iterator<Item = u16> + 'r {
        let memory = self.memory;
        let bottom = |t: u16| memory.under()[usize::from(t)] < NO_THREAD || memory.heads()[1] == t;
        core::iter::successors(Some(self.first), move |t| if bottom(*t) { None } else { Some(memory.right()[usize::from(*t)]).filter(|t| *t < NO_THREAD) })
    }
}

impl Memory {
    pub(crate) fn deque_open(&mut self, work: &mut Work, table: &[u8]) -> (u32, [u64; 1]) {
        let mut row = [0; 1];
        let parts = self.parts();
        // SAFETY: "`table` points to `length` bytes that may be read", since both are of one slice, whose pointer is never NULL; row and parts are references to arrays of their sizes, of a local,
        // of one `&mut self`, cut without overlap, and of one `&mut Work`, so that nothing overlaps and nobody else touches them. All of it "has been written", as every Rust value has.
        let number = unsafe {
            raw::wivakkol_deque_open_on(
                table.as_ptr(),
                table.len(),
                parts.settings,
                parts.parents,
                parts.next,
                parts.status,
                parts.amounts,
                parts.left,
                parts.right,
                parts.under,
                parts.over,
                parts.holds,
                parts.threads,
                parts.quotas,
                parts.heads,
                parts.totals,
                &mut row,
                &mut work.rises,
                &mut work.falls,
                &mut work.forks,
                &mut work.parents,
                &mut work.list,
            )
        };
        (number, row)
    }

    fn deque_turn(&mut self, table: &[u8], w: u32, c: u32) -> (u32, [u64; 5]) {
        let mut row = [0; 5];
        // SAFETY: as in `deque_open`, with blocks for their parts, which are fields of one `&mut self`; "one call at a time on it", by the same.
        let number = unsafe {
            raw::wivakkol_deque_turn_on(table.as_ptr(), table.len(), w, c, &mut self.bytes, &mut self.words, &mut self.numbers, &mut self.sums, &mut row)
        };
        (number, row)
    }

    fn deque_list(&mut self, table: &[u8], order: &[u8]) -> (u32, [u64; 3]) {
        let mut row = [0; 3];
        // SAFETY: as in `deque_turn`; "`order` points to `order_length` bytes", both of one slice, which `&mut self` cannot overlap.
        let number = unsafe {
            raw::wivakkol_deque_list_on(
                table.as_ptr(),
                table.len(),
                order.as_ptr(),
                order.len(),
                &mut self.bytes,
                &mut self.words,
                &mut self.numbers,
                &mut self.sums,
                &mut row,
            )
        };
        (number, row)
    }
}
