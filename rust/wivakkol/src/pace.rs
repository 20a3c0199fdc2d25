//! A pace beside a run, in the archive `libwivakkol_pace.a`: the feature `pace`.
use crate::run::{reply, report};
use crate::{raw, Memory, Refusal, Report, Run, Stopped, Turn};
use core::fmt;
use core::ops::DerefMut;

/// Where b and p stand, after 16 numbers for each worker.
const AT_B: usize = 256;
const AT_WORKERS: usize = 257;

/// Counts the turns of a run's workers for who wants the memory limit with b: between two turns of a worker, and after its latest, no other worker has more than b. 1,040 bytes of plain numbers,
/// laid out as C's `wivakkol_pace`. [`Run::paced`] takes turns through it, which refuses those that would break the rule; [`took`](Pace::took) counts turns that were taken otherwise, and
/// [`kept`](Pace::kept) says which b they kept.
///
/// The rule is about workers that have had a turn: one that never had any hinders nobody, and one that stops taking turns stops the others after b turns each. Somebody may always go on: a worker
/// that has had no turn yet, or the one whose latest turn is the oldest.
///
/// ```
/// use wivakkol::{Memory, Pace, Run, Work};
///
/// let table = include_bytes!("../../../examples/e.table");
/// let (mut memory, mut pace) = (Memory::new(), Pace::begin(2, 1)?);
/// let mut run = Run::begin(table, &mut memory, &mut Work::new(), 2, 6)?.paced(&mut pace);
/// run.turn(0)?;
/// run.turn(1)?;
/// run.turn(0)?;
/// assert_eq!(run.turn(0).unwrap_err().number, 60); // the second since worker 1's latest
/// run.turn(1)?;
/// assert_eq!((run.run().turns(), run.pace().kept()), (4, 1));
/// # Ok::<(), wivakkol::Refusal>(())
/// ```
#[derive(Clone, PartialEq, Eq)]
#[repr(C)]
pub struct Pace {
    numbers: [u32; 260],
}

/// b, p and the b kept, without the counts.
impl fmt::Debug for Pace {
    fn fmt(&self, f: &mut fmt::Formatter<'_>) -> fmt::Result {
        f.debug_struct("Pace").field("workers", &self.workers()).field("b", &self.b()).field("kept", &self.kept()).finish_non_exhaustive()
    }
}

impl Pace {
    /// Begins a pace for `p` workers, the run's p, and `b`: no turn is counted. Refused with 20 or 41.
    pub fn begin(p: u32, b: u32) -> Result<Pace, Refusal> {
        let mut pace = Pace { numbers: [0; 260] };
        // SAFETY: the array is a field of a local, of its full size.
        let number = unsafe { raw::wivakkol_pace_begin_on(p, b, &mut pace.numbers) };
        Refusal::unless_zero(number, 0)?;
        Ok(pace)
    }

    /// May worker `w` have the next turn, as far as the pace is concerned? Refused with 30 if `w` is not below the pace's p, with 60 if the turn would break the rule.
    pub fn may(&self, w: u32) -> Result<(), Refusal> {
        let Pace { numbers: pace } = self;
        // SAFETY: the array is a field of one `&self`, of its full size, to which nobody writes meanwhile.
        Refusal::unless_zero(unsafe { raw::wivakkol_may_on(pace, w) }, 0)
    }

    /// The least b that the turns counted so far keep, 0 where they keep every b. For a pace that refuses it is at most its b.
    pub fn kept(&self) -> u32 {
        let Pace { numbers: pace } = self;
        // SAFETY: as in `may`.
        unsafe { raw::wivakkol_kept_on(pace) }
    }

    /// Counts a turn of worker `w` that was not taken through the pace, for who refuses no turn and wants to know the b that was kept (exact for fewer than 2^32 − 2 turns, begun with any b).
    /// Refused with 30 if `w` is not below the pace's p, and then nothing is counted.
    pub fn took(&mut self, w: u32) -> Result<(), Refusal> {
        let Pace { numbers: pace } = self;
        // SAFETY: the array is a field of one `&mut self`, of its full size.
        Refusal::unless_zero(unsafe { raw::wivakkol_took_on(pace, w) }, 0)
    }

    /// The number of workers, p.
    pub fn workers(&self) -> u32 {
        self.numbers[AT_WORKERS]
    }

    /// The b that turns are refused by.
    pub fn b(&self) -> u32 {
        self.numbers[AT_B]
    }

    /// How many bytes [`to_bytes`](Pace::to_bytes) gives.
    pub const BYTES: usize = 1040;

    /// All numbers, little-endian, in C's order: a pace to be put away with its run.
    pub fn to_bytes(&self) -> [u8; Pace::BYTES] {
        let mut bytes = [0; Pace::BYTES];
        for (place, number) in bytes.chunks_exact_mut(4).zip(&self.numbers) {
            place.copy_from_slice(&number.to_le_bytes());
        }
        bytes
    }

    /// The numbers brought back, whatever they are: every call answers for any. They stand for the run's turns only where they were put away with it.
    pub fn from_bytes(bytes: &[u8; Pace::BYTES]) -> Pace {
        let mut pace = Pace { numbers: [0; 260] };
        for (number, place) in pace.numbers.iter_mut().zip(bytes.chunks_exact(4)) {
            *number = u32::from_le_bytes(*place.first_chunk().expect("a chunk has four bytes"));
        }
        pace
    }
}

/// A run whose turns go through a pace. It has the run, so that nobody takes a turn past the pace or goes back to a mark while it is there: the limit with b rests on that.
///
/// From [`Run::begin`] and [`Pace::begin`] for the same p, over every list of paced turns, lists and rounds on the two, refused ones included, the run's highest is at most
/// S1 + b·K·(p − 1)·(D − 1), with the facts of the table that runs, and the threads in the list are at most N + b·(p − 1)·(D − 1), whatever the workers do. A run that is put away and brought back
/// needs its pace put away and brought back too. Beside another run, or where turns were taken without it, a pace still answers, but that limit is not promised, and no number tells.
///
/// ```compile_fail,E0382
/// # use wivakkol::{Memory, Pace, Run, Work};
/// let (table, mut memory, mut pace) = ([1, 0, 1, 0, 0, 0, 1, 0, 0, 0, 0, 0], Memory::new(), Pace::begin(1, 1)?);
/// let mut run = Run::begin(&table, &mut memory, &mut Work::new(), 1, 1)?;
/// let mut paced = run.paced(&mut pace);
/// run.turn(0)?; // not past the pace
/// # Ok::<(), wivakkol::Refusal>(())
/// ```
pub struct Paced<'t, 'p, M = &'t mut Memory> {
    run: Run<'t, M>,
    pace: &'p mut Pace,
}

impl<M: DerefMut<Target = Memory>> fmt::Debug for Paced<'_, '_, M> {
    fn fmt(&self, f: &mut fmt::Formatter<'_>) -> fmt::Result {
        f.debug_struct("Paced").field("run", &self.run).field("pace", &self.pace).finish()
    }
}

impl<'t, M: DerefMut<Target = Memory>> Run<'t, M> {
    /// The run with its turns through a pace, begun with the run and its p, or put away and brought back with it.
    pub fn paced<'p>(self, pace: &'p mut Pace) -> Paced<'t, 'p, M> {
        Paced { run: self, pace }
    }
}

impl<'t, M: DerefMut<Target = Memory>> Paced<'t, '_, M> {
    /// A turn of worker `w`, counted. Refused, with nothing changed: 32, 30 and 31 as [`Run::turn`] is, first, so that a worker that waits hears that the run is over; then as
    /// [`Pace::may`] is, 30, `w` is not below the pace's p, or 60, the turn would break the rule with b: ask again once another worker has had a turn.
    pub fn turn(&mut self, w: u32) -> Result<Turn, Refusal> {
        let (number, [place, said, thread, value, passed]) = self.run.memory.paced_turn(self.run.table, self.pace, w);
        Refusal::unless_zero(number, place)?;
        Ok(Turn { reply: reply(said, thread, value), passed: passed as u16 })
    }

    /// A turn of each worker of `order`, up to the root's end. Stopped by a turn that is refused, with 30, 60 or 32; those before it are taken.
    pub fn list(&mut self, order: &[u8]) -> Result<Report, Stopped> {
        report(self.run.memory.paced_list(self.run.table, self.pace, order))
    }

    /// Turns of the workers 0 to p − 1, again and again, up to the root's end, at most `limit` of them, on from the worker after that of the latest turn: so calls one after the other,
    /// from the pace's beginning on and with no other turns, keep the rule with b 1 together, which those of [`Run::rounds`] do not, and none is refused with 60. Stopped as [`list`](Paced::list) is;
    /// a run with no worker at once with 30, as [`Run::rounds`] is.
    pub fn rounds(&mut self, limit: u32) -> Result<Report, Stopped> {
        report(self.run.memory.paced_rounds(self.run.table, self.pace, limit))
    }

    /// The run, to be looked at.
    pub fn run(&self) -> &Run<'t, M> {
        &self.run
    }

    /// The pace, to be looked at.
    pub fn pace(&self) -> &Pace {
        self.pace
    }

    /// The run without its pace, to be put away. Turns taken now are not counted.
    pub fn into_run(self) -> Run<'t, M> {
        self.run
    }
}

impl Memory {
    fn paced_turn(&mut self, table: &[u8], pace: &mut Pace, w: u32) -> (u32, [u64; 5]) {
        let mut row = [0; 5];
        // SAFETY: "`table` points to `length` bytes that may be read", since both are of one slice, whose pointer is never NULL; the row is a local array of its full size, the blocks of the run are
        // fields of one `&mut self` and the pace one of one `&mut Pace`, so that nothing overlaps and nobody else touches them. All of it "has been written", as every Rust value has.
        let number = unsafe {
            raw::wivakkol_paced_turn_on(
                table.as_ptr(),
                table.len(),
                w,
                &mut self.bytes,
                &mut self.words,
                &mut self.numbers,
                &mut self.sums,
                &mut pace.numbers,
                &mut row,
            )
        };
        (number, row)
    }

    fn paced_list(&mut self, table: &[u8], pace: &mut Pace, order: &[u8]) -> (u32, [u64; 3]) {
        let mut row = [0; 3];
        // SAFETY: as in `paced_turn`; "`order` likewise points to `turns` bytes", both of one slice, which `&mut self` and `&mut Pace` cannot overlap.
        let number = unsafe {
            raw::wivakkol_paced_list_on(
                table.as_ptr(),
                table.len(),
                order.as_ptr(),
                order.len(),
                &mut self.bytes,
                &mut self.words,
                &mut self.numbers,
                &mut self.sums,
                &mut pace.numbers,
                &mut row,
            )
        };
        (number, row)
    }

    fn paced_rounds(&mut self, table: &[u8], pace: &mut Pace, limit: u32) -> (u32, [u64; 3]) {
        let mut row = [0; 3];
        // SAFETY: as in `paced_turn`.
        let number = unsafe {
            raw::wivakkol_paced_rounds_on(
                table.as_ptr(),
                table.len(),
                limit,
                &mut self.bytes,
                &mut self.words,
                &mut self.numbers,
                &mut self.sums,
                &mut pace.numbers,
                &mut row,
            )
        };
        (number, row)
    }
}

// The layout of the header's struct.
const _: () = {
    assert!(core::mem::size_of::<Pace>() == 1040);
    assert!(core::mem::align_of::<Pace>() == 4);
};
