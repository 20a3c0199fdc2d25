//! The memory of a run, working memory, and the calls on them.
use crate::raw;

/// The memory that a run stands in: 21,656 bytes of plain numbers, laid out as C's `wivakkol_run`. It may be a local, a field, a static or in a box; nothing here allocates. A run that is put
/// away is a copy of it, or its bytes; [`Run::open`](crate::Run::open) goes on with it. It serves both kinds of run and does not say which stands in it: a run by DFDeques is opened as a
/// `DequeRun`, by its feature `deques`, and as nothing else.
#[derive(Clone)]
#[repr(C)]
pub struct Memory {
    // made from data/memory.txt: struct
    pub(crate) sums: [u64; 1027],
    pub(crate) numbers: [u32; 18],
    pub(crate) words: [u16; 6163],
    pub(crate) bytes: [u8; 1040],
    // made to here
}

/// The parts of the blocks, each with its place: one of them to be read, as an array of its own, and all of them to be written, cut from the blocks one behind the other.
macro_rules! parts {
    ($($block:ident { $($part:ident: [$number:ty; $size:literal] at $place:literal,)+ })+) => {
        #[allow(dead_code)] // nothing here reads the parents and the second list's left neighbours
        impl Memory {
            $($(
                pub(crate) fn $part(&self) -> &[$number; $size] {
                    self.$block[$place..].first_chunk().expect("a part lies in its block")
                }
            )+)+
        }

        pub(crate) struct Parts<'m> {
            $($(pub(crate) $part: &'m mut [$number; $size],)+)+
        }

        impl Memory {
            pub(crate) fn parts(&mut self) -> Parts<'_> {
                $(
                    let rest = &mut self.$block[..];
                    $(let ($part, rest) = rest.split_first_chunk_mut().expect("a part lies in its block");)+
                    debug_assert!(rest.is_empty());
                )+
                Parts { $($($part,)+)+ }
            }
        }

        // each part begins where the one before it ends, and the last one ends with the block
        const _: () = {
            let memory = Memory::new();
            $(
                let end = 0;
                $(
                    assert!($place == end);
                    let end = end + $size;
                )+
                assert!(end == memory.$block.len());
            )+
        };
    };
}

// made from data/memory.txt: parts
parts! {
    sums {
        amounts: [u64; 1024] at 0,
        totals: [u64; 3] at 1024,
    }
    numbers {
        settings: [u32; 2] at 0,
        quotas: [u32; 16] at 2,
    }
    words {
        parents: [u16; 1024] at 0,
        next: [u16; 1024] at 1024,
        left: [u16; 1024] at 2048,
        right: [u16; 1024] at 3072,
        under: [u16; 1024] at 4096,
        over: [u16; 1024] at 5120,
        threads: [u16; 16] at 6144,
        heads: [u16; 3] at 6160,
    }
    bytes {
        status: [u8; 1024] at 0,
        holds: [u8; 16] at 1024,
    }
}
// made to here

impl Memory {
    /// All 0, as after a beginning that was refused.
    pub const fn new() -> Memory {
        Memory { sums: [0; 1027], numbers: [0; 18], words: [0; 6163], bytes: [0; 1040] }
    }

    pub(crate) fn ended(&self) -> bool {
        self.status()[0] == 4
    }

    pub(crate) fn begin(&mut self, work: &mut Work, table: &[u8], filled: &mut [u8], p: u32, quota: u32) -> (u32, [u64; 2]) {
        let mut row = [0; 2];
        let parts = self.parts();
        // SAFETY: "`table` points to `length` bytes that may be read", since both are of one slice, whose pointer is never NULL; "`filled` points to `room` bytes that may be written", likewise;
        // row and parts are references to arrays of their sizes, of a local, of one `&mut self`, cut without overlap, and of one `&mut Work`, so that nothing overlaps and nobody else touches
        // them. The content of the memory does not matter.
        let number = unsafe {
            raw::wivakkol_begin_on(
                table.as_ptr(),
                table.len(),
                p,
                quota,
                parts.settings,
                parts.parents,
                parts.next,
                parts.status,
                parts.amounts,
                parts.left,
                parts.right,
                parts.under,
                parts.over,
                parts.holds,
                parts.threads,
                parts.quotas,
                parts.heads,
                parts.totals,
                &mut row,
                &mut work.rises,
                &mut work.falls,
                filled.as_mut_ptr(),
                filled.len(),
            )
        };
        (number, row)
    }

    pub(crate) fn open(&mut self, work: &mut Work, table: &[u8]) -> (u32, [u64; 1]) {
        let mut row = [0; 1];
        let parts = self.parts();
        // SAFETY: as in `begin`; "all of its memory has been written", as that of every Rust value.
        let number = unsafe {
            raw::wivakkol_open_on(
                table.as_ptr(),
                table.len(),
                parts.settings,
                parts.parents,
                parts.next,
                parts.status,
                parts.amounts,
                parts.left,
                parts.right,
                parts.under,
                parts.over,
                parts.holds,
                parts.threads,
                parts.quotas,
                parts.heads,
                parts.totals,
                &mut row,
                &mut work.rises,
                &mut work.falls,
                &mut work.forks,
                &mut work.parents,
                &mut work.list,
            )
        };
        (number, row)
    }

    pub(crate) fn turn(&mut self, table: &[u8], w: u32) -> (u32, [u64; 5]) {
        let mut row = [0; 5];
        // SAFETY: as in `open`, with blocks for their parts, which are fields of one `&mut self`; "one call at a time on it", by the same.
        let number =
            unsafe { raw::wivakkol_turn_on(table.as_ptr(), table.len(), w, &mut self.bytes, &mut self.words, &mut self.numbers, &mut self.sums, &mut row) };
        (number, row)
    }

    pub(crate) fn list(&mut self, table: &[u8], order: &[u8]) -> (u32, [u64; 3]) {
        let mut row = [0; 3];
        // SAFETY: as in `turn`; "`order` likewise points to `turns` bytes", both of one slice, which `&mut self` cannot overlap.
        let number = unsafe {
            raw::wivakkol_list_on(
                table.as_ptr(),
                table.len(),
                order.as_ptr(),
                order.len(),
                &mut self.bytes,
                &mut self.words,
                &mut self.numbers,
                &mut self.sums,
                &mut row,
            )
        };
        (number, row)
    }

    pub(crate) fn rounds(&mut self, table: &[u8], limit: u32) -> (u32, [u64; 3]) {
        let mut row = [0; 3];
        // SAFETY: as in `turn`.
        let number = unsafe {
            raw::wivakkol_rounds_on(table.as_ptr(), table.len(), limit, &mut self.bytes, &mut self.words, &mut self.numbers, &mut self.sums, &mut row)
        };
        (number, row)
    }
}

impl Memory {
    pub(crate) fn preview(&self, table: &[u8], w: u32) -> (u32, [u64; 8]) {
        let mut row = [0; 8];
        // SAFETY: as in `turn`; the blocks are read alone, and while `&self` is there nobody writes to them.
        let number = unsafe { raw::wivakkol_preview_on(table.as_ptr(), table.len(), w, &self.bytes, &self.words, &self.numbers, &self.sums, &mut row) };
        (number, row)
    }

    pub(crate) fn chart(&self, work: &mut Work, table: &[u8]) -> (u32, [u8; 85]) {
        let mut line = [b' '; 85];
        // SAFETY: as in `preview`; the line is a local, and the working memory one `&mut Work`.
        let number = unsafe {
            raw::wivakkol_chart_on(
                table.as_ptr(),
                table.len(),
                self.settings(),
                self.next(),
                self.status(),
                self.amounts(),
                self.left(),
                self.right(),
                self.holds(),
                self.threads(),
                self.quotas(),
                self.heads(),
                self.totals(),
                &mut line,
                &mut work.rises,
                &mut work.falls,
                &mut work.forks,
                &mut work.parents,
                &mut work.list,
            )
        };
        (number, line)
    }
}

/// Something done for each block and the type of its numbers, in their order.
macro_rules! each_block {
    ($memory:expr, $on:ident) => {
        $on!($memory.sums, u64);
        $on!($memory.numbers, u32);
        $on!($memory.words, u16);
        $on!($memory.bytes, u8);
    };
}

impl Memory {
    /// How many bytes [`to_bytes`](Memory::to_bytes) gives.
    pub const BYTES: usize = 21654;

    /// All numbers, little-endian, in the order of C's `wivakkol_run`: a run to be put away.
    pub fn to_bytes(&self) -> [u8; Memory::BYTES] {
        let (mut bytes, mut at) = ([0; Memory::BYTES], 0);
        macro_rules! put {
            ($block:expr, $number:ty) => {
                for x in &$block {
                    let x = x.to_le_bytes();
                    bytes[at..at + x.len()].copy_from_slice(&x);
                    at += x.len();
                }
            };
        }
        each_block!(self, put);
        debug_assert_eq!(at, Memory::BYTES);
        bytes
    }

    /// The numbers brought back, whatever they are: [`Run::open`](crate::Run::open) tests them.
    pub fn from_bytes(bytes: &[u8; Memory::BYTES]) -> Memory {
        let (mut memory, mut rest) = (Memory::new(), &bytes[..]);
        macro_rules! take {
            ($block:expr, $number:ty) => {
                for x in &mut $block {
                    let (number, after) = rest.split_first_chunk().expect("there are as many bytes as the numbers have");
                    *x = <$number>::from_le_bytes(*number);
                    rest = after;
                }
            };
        }
        each_block!(memory, take);
        memory
    }
}

/// Working memory of [`Run::begin`](crate::Run::begin), [`Run::open`](crate::Run::open) and [`Run::wall_line`](crate::Run::wall_line): 22,528 bytes, all 0 between two calls. One serves any number
/// of runs, one call at a time.
#[repr(C)]
pub struct Work {
    pub(crate) rises: [u64; 1024],
    pub(crate) falls: [u64; 1024],
    pub(crate) forks: [u16; 1024],
    pub(crate) parents: [u16; 1024],
    pub(crate) list: [u16; 1024],
}

impl Work {
    pub const fn new() -> Work {
        Work { rises: [0; 1024], falls: [0; 1024], forks: [0; 1024], parents: [0; 1024], list: [0; 1024] }
    }
}

impl Default for Work {
    fn default() -> Work {
        Work::new()
    }
}

/// Working memory of the calls on tables, [`check`](crate::check) and the others: 30,720 bytes, all 0 between two calls. One serves any number of tables, one call at a time.
#[cfg_attr(not(feature = "tables"), allow(dead_code))] // the last two fields are for whole tables
#[repr(C)]
pub struct TablesWork {
    pub(crate) rises: [u64; 1024],
    pub(crate) falls: [u64; 1024],
    pub(crate) peaks: [u64; 1024],
    pub(crate) depths: [u16; 1024],
    pub(crate) names: [u16; 1024],
    pub(crate) order: [u16; 1024],
}

impl TablesWork {
    pub const fn new() -> TablesWork {
        TablesWork { rises: [0; 1024], falls: [0; 1024], peaks: [0; 1024], depths: [0; 1024], names: [0; 1024], order: [0; 1024] }
    }
}

impl Default for TablesWork {
    fn default() -> TablesWork {
        TablesWork::new()
    }
}

/// Working memory of [`limit`](crate::limit), [`fit`](crate::fit) and, with the feature `deques`, `deque_limit`: 305,152 bytes, all 0 between two calls. One serves any number of tables, one call
/// at a time.
#[repr(C)]
pub struct LimitWork {
    pub(crate) rises: [u64; 1024],
    pub(crate) falls: [u64; 1024],
    pub(crate) serials: [u64; 1024],
    pub(crate) depths: [u16; 1024],
    pub(crate) peaks: [u64; 17408],
    pub(crate) rows: [u64; 17408],
}

impl LimitWork {
    pub const fn new() -> LimitWork {
        LimitWork { rises: [0; 1024], falls: [0; 1024], serials: [0; 1024], depths: [0; 1024], peaks: [0; 17408], rows: [0; 17408] }
    }
}

impl Default for LimitWork {
    fn default() -> LimitWork {
        LimitWork::new()
    }
}

impl Default for Memory {
    fn default() -> Memory {
        Memory::new()
    }
}

// The layout of the header's struct, each block of a run where C has it.
const _: () = {
    assert!(core::mem::size_of::<Memory>() == 21656);
    assert!(core::mem::align_of::<Memory>() == 8);
    assert!(core::mem::offset_of!(Memory, sums) == 0);
    assert!(core::mem::offset_of!(Memory, numbers) == 8216);
    assert!(core::mem::offset_of!(Memory, words) == 8288);
    assert!(core::mem::offset_of!(Memory, bytes) == 20614);
    assert!(core::mem::size_of::<Work>() == 22528);
    assert!(core::mem::align_of::<Work>() == 8);
    assert!(core::mem::size_of::<TablesWork>() == 30720);
    assert!(core::mem::align_of::<TablesWork>() == 8);
    assert!(core::mem::size_of::<LimitWork>() == 305152);
    assert!(core::mem::align_of::<LimitWork>() == 8);
};
