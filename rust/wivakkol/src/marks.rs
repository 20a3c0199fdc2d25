//! Marks to come back to, in the archive `libwivakkol_marks.a`: the feature `marks`.
use crate::{raw, Memory, Refusal, Work};

/// The eight marks of a run, 0 to 7: each is unset or keeps all of the run but its table. 173,240 bytes of plain numbers, laid out as C's `wivakkol_marks`, too many for the stack of a small
/// thread: a static or a box holds them. They serve one run, with its table, by [`Run::mark`](crate::Run::mark) and [`Run::back`](crate::Run::back); the other calls do not take them,
/// so that with another run come new marks, or [`clear`](Marks::clear).
///
/// ```
/// use wivakkol::{Marks, MarksWork, Memory, Run};
///
/// let table = include_bytes!("../../../examples/e.table");
/// let (mut memory, mut marks, mut work) = (Memory::new(), Box::new(Marks::new()), MarksWork::new());
/// let mut run = Run::begin(table, &mut memory, work.work(), 2, 6)?;
/// run.list(&[0, 1, 0])?;
/// run.mark(&mut marks, &mut work, 2)?;
/// run.list(&[1, 0])?;
/// assert_eq!((run.held(), run.highest(), run.turns()), (12, 12, 5));
/// run.back(&marks, &mut work, 2)?; // now another order, from the same point
/// assert_eq!((run.held(), run.highest(), run.turns()), (6, 6, 3));
/// # Ok::<(), Box<dyn std::error::Error>>(())
/// ```
#[derive(Clone)]
#[repr(C)]
pub struct Marks {
    sums: [u64; 8 * 1027],
    numbers: [u32; 8 * 18],
    words: [u16; 8 * 6163],
    bytes: [u8; 8 * 1040],
    set: [u8; 8],
}

/// Of a block of the marks the stretch of mark i.
fn stretch<T, const SIZE: usize>(block: &[T], i: usize) -> &[T; SIZE] {
    block[i * SIZE..].first_chunk().expect("a stretch lies in its block")
}

fn stretch_mut<T, const SIZE: usize>(block: &mut [T], i: usize) -> &mut [T; SIZE] {
    block[i * SIZE..].first_chunk_mut().expect("a stretch lies in its block")
}

impl Marks {
    /// None is set.
    pub const fn new() -> Marks {
        Marks { sums: [0; 8 * 1027], numbers: [0; 8 * 18], words: [0; 8 * 6163], bytes: [0; 8 * 1040], set: [0; 8] }
    }

    /// Clears the marks: none is set.
    pub fn clear(&mut self) {
        // SAFETY: the array is a field of one `&mut self`, of its full size.
        unsafe { raw::wivakkol_unmark_on(&mut self.set) }
    }

    /// What mark `i` keeps, to be looked at or put away; `None` where it is not set or `i` is above 7.
    pub fn get(&self, i: u32) -> Option<Memory> {
        let i = usize::try_from(i).ok()?;
        let set = *self.set.get(i)? != 0;
        set.then(|| Memory {
            sums: *stretch(&self.sums, i),
            numbers: *stretch(&self.numbers, i),
            words: *stretch(&self.words, i),
            bytes: *stretch(&self.bytes, i),
        })
    }

    /// A mark brought back, whatever the numbers: [`Run::mark`](crate::Run::mark) and [`Run::back`](crate::Run::back) test every set mark. Refused with 45 where `i` is above 7.
    pub fn put(&mut self, i: u32, memory: &Memory) -> Result<(), Refusal> {
        let at = i as usize;
        let Some(set) = self.set.get_mut(at) else {
            return Err(Refusal { number: 45, place: 0 });
        };
        *set = 1;
        *stretch_mut(&mut self.sums, at) = memory.sums;
        *stretch_mut(&mut self.numbers, at) = memory.numbers;
        *stretch_mut(&mut self.words, at) = memory.words;
        *stretch_mut(&mut self.bytes, at) = memory.bytes;
        Ok(())
    }
}

impl Default for Marks {
    fn default() -> Marks {
        Marks::new()
    }
}

/// Working memory of [`Run::mark`](crate::Run::mark) and [`Run::back`](crate::Run::back): 59,544 bytes, all 0 between two calls. One serves any number of runs, one call at a time.
#[repr(C)]
pub struct MarksWork {
    run: Memory,
    amounts: [u64; 1024],
    next: [u16; 1024],
    left: [u16; 1024],
    right: [u16; 1024],
    status: [u8; 1024],
    work: Work,
}

impl MarksWork {
    pub const fn new() -> MarksWork {
        MarksWork { run: Memory::new(), amounts: [0; 1024], next: [0; 1024], left: [0; 1024], right: [0; 1024], status: [0; 1024], work: Work::new() }
    }

    /// The part that is a [`Work`], for the calls that take one.
    pub fn work(&mut self) -> &mut Work {
        &mut self.work
    }
}

impl Default for MarksWork {
    fn default() -> MarksWork {
        MarksWork::new()
    }
}

impl Memory {
    pub(crate) fn mark(&self, marks: &mut Marks, work: &mut MarksWork, table: &[u8], i: u32) -> u32 {
        // SAFETY: "`table` points to `length` bytes that may be read", since both are of one slice, whose pointer is never NULL; the blocks of the run are fields of one `&self`, to which nobody
        // writes meanwhile, those of the marks of one `&mut Marks`, and the working memory is of one `&mut MarksWork`, so that nothing overlaps and nobody else touches them. All of it "has been
        // written", as every Rust value has, and what the numbers are does not matter.
        unsafe {
            raw::wivakkol_mark_on(
                table.as_ptr(),
                table.len(),
                i,
                &self.bytes,
                &self.words,
                &self.numbers,
                &self.sums,
                &mut marks.set,
                &mut marks.bytes,
                &mut marks.words,
                &mut marks.numbers,
                &mut marks.sums,
                &mut work.run.bytes,
                &mut work.run.words,
                &mut work.run.numbers,
                &mut work.run.sums,
                &mut work.next,
                &mut work.status,
                &mut work.amounts,
                &mut work.left,
                &mut work.right,
                &mut work.work.rises,
                &mut work.work.falls,
                &mut work.work.forks,
                &mut work.work.parents,
                &mut work.work.list,
            )
        }
    }

    pub(crate) fn back(&mut self, marks: &Marks, work: &mut MarksWork, table: &[u8], i: u32) -> u32 {
        // SAFETY: as in `mark`, with the run written and the marks read alone.
        unsafe {
            raw::wivakkol_back_on(
                table.as_ptr(),
                table.len(),
                i,
                &mut self.bytes,
                &mut self.words,
                &mut self.numbers,
                &mut self.sums,
                &marks.set,
                &marks.bytes,
                &marks.words,
                &marks.numbers,
                &marks.sums,
                &mut work.run.bytes,
                &mut work.run.words,
                &mut work.run.numbers,
                &mut work.run.sums,
                &mut work.next,
                &mut work.status,
                &mut work.amounts,
                &mut work.left,
                &mut work.right,
                &mut work.work.rises,
                &mut work.work.falls,
                &mut work.work.forks,
                &mut work.work.parents,
                &mut work.work.list,
            )
        }
    }
}

// The layout of the header's structs.
const _: () = {
    assert!(core::mem::size_of::<Marks>() == 173240);
    assert!(core::mem::align_of::<Marks>() == 8);
    assert!(core::mem::offset_of!(Marks, numbers) == 65728);
    assert!(core::mem::offset_of!(Marks, words) == 66304);
    assert!(core::mem::offset_of!(Marks, bytes) == 164912);
    assert!(core::mem::offset_of!(Marks, set) == 173232);
    assert!(core::mem::size_of::<MarksWork>() == 59544);
    assert!(core::mem::align_of::<MarksWork>() == 8);
    assert!(core::mem::offset_of!(MarksWork, work) == 37016);
};
