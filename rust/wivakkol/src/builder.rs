//! Tables written from forks and joins.
use crate::refusal::error;
use crate::{check, Facts, Place, Refusal, TablesWork, TABLE_MOST};
use core::fmt;

const THREADS: usize = crate::MOST_THREADS;
const ACTIONS: usize = 8192;
const AMOUNT_MOST: u32 = 0xff_ffff;
/// No child, since it is no thread's number.
const NONE: u16 = 1024;

/// A thread of a [`Builder`].
#[derive(Clone, Copy, Debug, PartialEq, Eq, Hash)]
pub struct Thread(u16);

impl Thread {
    /// Thread 0.
    pub const ROOT: Thread = Thread(0);

    /// Its number in the table.
    pub fn number(self) -> u16 {
        self.0
    }
}

/// Why there is no table.
#[derive(Clone, Copy, PartialEq, Eq, Hash)]
pub enum NotBuilt {
    /// More than 1,024 threads, or more than 8,192 actions with an end for each thread.
    TooLarge,
    /// An alloc or a free of 0, or of more than 16,777,215.
    Amount { thread: Thread, amount: u32 },
    /// A join of a thread that has no child to join.
    NothingToJoin { thread: Thread },
    /// A thread of another builder.
    NoSuchThread { thread: Thread },
    /// What the check of the whole table says: 9, an end with a child not joined, or 10, a balance below 0. It is at so many actions of its thread from the top, counted from 0.
    Refused { refusal: Refusal, thread: Thread, step: u16 },
}

impl fmt::Display for NotBuilt {
    fn fmt(&self, f: &mut fmt::Formatter<'_>) -> fmt::Result {
        match self {
            NotBuilt::TooLarge => write!(f, "the table would pass {THREADS} threads or {ACTIONS} actions"),
            NotBuilt::Amount { thread, amount } => write!(f, "thread {}: an amount of {amount}, not 1 to {AMOUNT_MOST}", thread.0),
            NotBuilt::NothingToJoin { thread } => write!(f, "thread {}: a join, and no child that is forked and not yet joined", thread.0),
            NotBuilt::NoSuchThread { thread } => write!(f, "thread {}: not forked in this builder", thread.0),
            NotBuilt::Refused { refusal, thread, step } => write!(f, "{refusal} (thread {}, step {step})", thread.0),
        }
    }
}

error!(NotBuilt);

/// A table in the making, 55 KB of plain numbers: actions are put behind each other in each thread, the threads in any order, and a fork gives its thread the next number. Joins name their child by
/// themselves, since it can only be the latest, and every thread gets its end when the table is written. Where something is refused nothing is put.
///
/// ```
/// use wivakkol::{Builder, TablesWork, Thread, TABLE_MOST};
///
/// let mut builder = Builder::new();
/// for _ in 0..6 {
///     let repeat = builder.fork(Thread::ROOT)?;
///     builder.alloc(repeat, 40)?;
///     builder.work(repeat)?;
///     builder.free(repeat, 40)?;
/// }
/// builder.join_all(Thread::ROOT)?;
/// let mut out = [0; TABLE_MOST];
/// let (table, facts) = builder.write(&mut TablesWork::new(), &mut out)?;
/// assert_eq!((facts.threads, facts.actions, facts.peak), (7, 37, 40));
/// assert_eq!(wivakkol::check(&mut TablesWork::new(), table), Ok(facts));
/// # Ok::<(), wivakkol::NotBuilt>(())
/// ```
#[derive(Clone)]
pub struct Builder {
    /// Of each action, in the order in which they were put: its thread, and its four bytes.
    owners: [u16; ACTIONS],
    actions: [[u8; 4]; ACTIONS],
    put: usize,
    threads: usize,
    /// Of each thread, how many actions it has; its latest child that is not joined; the sibling that was the latest before it.
    counts: [u16; THREADS],
    open: [u16; THREADS],
    before: [u16; THREADS],
}

impl Default for Builder {
    fn default() -> Self {
        Self::new()
    }
}

impl Builder {
    /// The root alone, with nothing to do.
    pub const fn new() -> Self {
        let none = [NONE; THREADS];
        Builder { owners: [0; ACTIONS], actions: [[0; 4]; ACTIONS], put: 0, threads: 1, counts: [0; THREADS], open: none, before: none }
    }

    /// A new thread, forked here.
    pub fn fork(&mut self, thread: Thread) -> Result<Thread, NotBuilt> {
        let child = self.threads;
        if child == THREADS {
            return Err(NotBuilt::TooLarge);
        }
        self.put(thread, 4, child as u32, 2)?;
        self.threads += 1;
        self.before[child] = self.open[usize::from(thread.0)];
        self.open[usize::from(thread.0)] = child as u16;
        Ok(Thread(child as u16))
    }

    /// Waits for the latest child that is forked and not yet joined, and says which.
    pub fn join(&mut self, thread: Thread) -> Result<Thread, NotBuilt> {
        self.known(thread)?;
        let child = self.open[usize::from(thread.0)];
        if child == NONE {
            return Err(NotBuilt::NothingToJoin { thread });
        }
        self.put(thread, 5, u32::from(child), 1)?;
        self.open[usize::from(thread.0)] = self.before[usize::from(child)];
        Ok(Thread(child))
    }

    /// Joins all children that are left, the latest first.
    pub fn join_all(&mut self, thread: Thread) -> Result<(), NotBuilt> {
        self.known(thread)?;
        while self.open[usize::from(thread.0)] != NONE {
            self.join(thread)?;
        }
        Ok(())
    }

    /// Anything that takes a turn and no memory.
    pub fn work(&mut self, thread: Thread) -> Result<(), NotBuilt> {
        self.put(thread, 1, 0, 1)
    }

    /// Draws memory.
    pub fn alloc(&mut self, thread: Thread, amount: u32) -> Result<(), NotBuilt> {
        self.amount(thread, 2, amount)
    }

    /// Gives memory back: of its own, or what a joined child left.
    pub fn free(&mut self, thread: Thread, amount: u32) -> Result<(), NotBuilt> {
        self.amount(thread, 3, amount)
    }

    /// The table at the start of the buffer, with its facts, once it has passed [`check`]; the builder stays as it is, so that more may be put. Working memory and buffer may hold anything, and a
    /// table that is refused is left in the buffer.
    pub fn write<'o>(&self, work: &mut TablesWork, out: &'o mut [u8; TABLE_MOST]) -> Result<(&'o [u8], Facts), NotBuilt> {
        let (n, m) = (self.threads, self.put + self.threads);
        let mut rows = [0; THREADS];
        let mut first = 0;
        for (t, row) in rows.iter_mut().enumerate().take(n) {
            let count = self.counts[t] + 1;
            *row = 4 + 4 * n + 4 * usize::from(first);
            put_words(out, 4 + 4 * t, first, count);
            put_words(out, *row + 4 * usize::from(count - 1), 0, 0);
            first += count;
        }
        put_words(out, 0, n as u16, m as u16);
        for (owner, action) in self.owners[..self.put].iter().zip(&self.actions) {
            let row = &mut rows[usize::from(*owner)];
            out[*row..*row + 4].copy_from_slice(action);
            *row += 4;
        }
        let table = &out[..4 + 4 * n + 4 * m];
        let facts = check(work, table).map_err(|refusal| self.refused(refusal))?;
        Ok((table, facts))
    }

    /// A refusal with its place in its thread.
    fn refused(&self, refusal: Refusal) -> NotBuilt {
        debug_assert_eq!(refusal.kind_of_place(), Place::Action);
        let (mut thread, mut step) = (0, refusal.place);
        while thread < self.threads && step > u64::from(self.counts[thread]) {
            step -= u64::from(self.counts[thread]) + 1;
            thread += 1;
        }
        NotBuilt::Refused { refusal, thread: Thread(thread as u16), step: step as u16 }
    }

    fn known(&self, thread: Thread) -> Result<(), NotBuilt> {
        match usize::from(thread.0) < self.threads {
            true => Ok(()),
            false => Err(NotBuilt::NoSuchThread { thread }),
        }
    }

    fn amount(&mut self, thread: Thread, kind: u8, amount: u32) -> Result<(), NotBuilt> {
        match amount {
            1..=AMOUNT_MOST => self.put(thread, kind, amount, 1),
            _ => Err(NotBuilt::Amount { thread, amount }),
        }
    }

    /// An action behind those of its thread, where there is room for it and what comes with it: `more` actions in all, and the ends of the threads.
    fn put(&mut self, thread: Thread, kind: u8, argument: u32, more: usize) -> Result<(), NotBuilt> {
        self.known(thread)?;
        if self.put + self.threads + more > ACTIONS {
            return Err(NotBuilt::TooLarge);
        }
        let [a, b, c, _] = argument.to_le_bytes();
        self.owners[self.put] = thread.0;
        self.actions[self.put] = [kind, a, b, c];
        self.put += 1;
        self.counts[usize::from(thread.0)] += 1;
        Ok(())
    }
}

/// Two numbers of 16 bits.
fn put_words(out: &mut [u8; TABLE_MOST], at: usize, first: u16, second: u16) {
    out[at..at + 2].copy_from_slice(&first.to_le_bytes());
    out[at + 2..at + 4].copy_from_slice(&second.to_le_bytes());
}
