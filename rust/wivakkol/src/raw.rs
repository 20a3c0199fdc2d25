//! The exported functions as the archives have them. An array is a reference to one of its size, so that the types say what include/wivakkol.h, wivakkol_tables.h, wivakkol_marks.h, wivakkol_deques.h,
//! wivakkol_desk.h and wivakkol_pace.h ask of a row, a block or a part of one: it is not NULL, aligned, of the full size and written before, and what is lent to be written overlaps nothing else. tests/calls/declarations.rs
//! holds them against the source.

extern "C" {
    pub fn wivakkol_check_on(
        table: *const u8,
        length: usize,
        row: &mut [u64; 6],
        rises: &mut [u64; 1024],
        falls: &mut [u64; 1024],
        peaks: &mut [u64; 1024],
        depths: &mut [u16; 1024],
    ) -> u32;

    pub fn wivakkol_quota_on(
        table: *const u8,
        length: usize,
        p: u32,
        b: u32,
        memory: u64,
        row: &mut [u64; 2],
        rises: &mut [u64; 1024],
        falls: &mut [u64; 1024],
        peaks: &mut [u64; 1024],
        depths: &mut [u16; 1024],
    ) -> u32;

    pub fn wivakkol_most_on(table: *const u8, length: usize, p: u32, quota: u32, row: &mut [u64; 2], rises: &mut [u64; 1024], falls: &mut [u64; 1024]) -> u32;

    pub fn wivakkol_limit_on(
        table: *const u8,
        length: usize,
        p: u32,
        quota: u32,
        b: u32,
        row: &mut [u64; 6],
        rises: &mut [u64; 1024],
        falls: &mut [u64; 1024],
        serials: &mut [u64; 1024],
        depths: &mut [u16; 1024],
        peaks: &mut [u64; 17408],
        rows: &mut [u64; 17408],
        filled: *mut u8,
        room: usize,
    ) -> u32;

    pub fn wivakkol_fit_on(
        table: *const u8,
        length: usize,
        p: u32,
        b: u32,
        memory: u64,
        row: &mut [u64; 4],
        rises: &mut [u64; 1024],
        falls: &mut [u64; 1024],
        serials: &mut [u64; 1024],
        depths: &mut [u16; 1024],
        peaks: &mut [u64; 17408],
        rows: &mut [u64; 17408],
    ) -> u32;

    pub fn wivakkol_begin_on(
        table: *const u8,
        length: usize,
        p: u32,
        quota: u32,
        settings: &mut [u32; 2],
        parents: &mut [u16; 1024],
        next: &mut [u16; 1024],
        status: &mut [u8; 1024],
        amounts: &mut [u64; 1024],
        left: &mut [u16; 1024],
        right: &mut [u16; 1024],
        under: &mut [u16; 1024],
        over: &mut [u16; 1024],
        holds: &mut [u8; 16],
        threads: &mut [u16; 16],
        quotas: &mut [u32; 16],
        heads: &mut [u16; 3],
        totals: &mut [u64; 3],
        row: &mut [u64; 2],
        rises: &mut [u64; 1024],
        falls: &mut [u64; 1024],
        filled: *mut u8,
        room: usize,
    ) -> u32;

    pub fn wivakkol_open_on(
        table: *const u8,
        length: usize,
        settings: &[u32; 2],
        parents: &mut [u16; 1024],
        next: &[u16; 1024],
        status: &[u8; 1024],
        amounts: &[u64; 1024],
        left: &[u16; 1024],
        right: &[u16; 1024],
        under: &mut [u16; 1024],
        over: &mut [u16; 1024],
        holds: &[u8; 16],
        threads: &[u16; 16],
        quotas: &[u32; 16],
        heads: &mut [u16; 3],
        totals: &[u64; 3],
        row: &mut [u64; 1],
        rises: &mut [u64; 1024],
        falls: &mut [u64; 1024],
        forks: &mut [u16; 1024],
        seen: &mut [u16; 1024],
        list: &mut [u16; 1024],
    ) -> u32;

    pub fn wivakkol_turn_on(
        table: *const u8,
        length: usize,
        w: u32,
        bytes: &mut [u8; 1040],
        words: &mut [u16; 6163],
        numbers: &mut [u32; 18],
        sums: &mut [u64; 1027],
        row: &mut [u64; 5],
    ) -> u32;

    pub fn wivakkol_kind(table: *const u8, length: usize, a: u64) -> u32;

    pub fn wivakkol_argument(table: *const u8, length: usize, a: u64) -> u32;

    pub fn wivakkol_origin(table: *const u8, length: usize, quota: u32, a: u64) -> u32;

    pub fn wivakkol_list_on(
        table: *const u8,
        length: usize,
        order: *const u8,
        turns: usize,
        bytes: &mut [u8; 1040],
        words: &mut [u16; 6163],
        numbers: &mut [u32; 18],
        sums: &mut [u64; 1027],
        row: &mut [u64; 3],
    ) -> u32;

    pub fn wivakkol_rounds_on(
        table: *const u8,
        length: usize,
        limit: u32,
        bytes: &mut [u8; 1040],
        words: &mut [u16; 6163],
        numbers: &mut [u32; 18],
        sums: &mut [u64; 1027],
        row: &mut [u64; 3],
    ) -> u32;

    pub fn wivakkol_preview_on(
        table: *const u8,
        length: usize,
        w: u32,
        bytes: &[u8; 1040],
        words: &[u16; 6163],
        numbers: &[u32; 18],
        sums: &[u64; 1027],
        row: &mut [u64; 8],
    ) -> u32;

    pub fn wivakkol_chart_on(
        table: *const u8,
        length: usize,
        settings: &[u32; 2],
        next: &[u16; 1024],
        status: &[u8; 1024],
        amounts: &[u64; 1024],
        left: &[u16; 1024],
        right: &[u16; 1024],
        holds: &[u8; 16],
        threads: &[u16; 16],
        quotas: &[u32; 16],
        heads: &[u16; 3],
        totals: &[u64; 3],
        line: &mut [u8; 85],
        rises: &mut [u64; 1024],
        falls: &mut [u64; 1024],
        forks: &mut [u16; 1024],
        seen: &mut [u16; 1024],
        list: &mut [u16; 1024],
    ) -> u32;
}

#[cfg(feature = "tables")]
extern "C" {
    pub fn wivakkol_join_on(
        tables: *const u8,
        length: usize,
        lengths: *const u32,
        parts: usize,
        out: &mut [u8; 36868],
        row: &mut [u64; 7],
        rises: &mut [u64; 1024],
        falls: &mut [u64; 1024],
        peaks: &mut [u64; 1024],
        depths: &mut [u16; 1024],
    ) -> u32;

    pub fn wivakkol_canonical_on(
        table: *const u8,
        length: usize,
        out: &mut [u8; 36868],
        row: &mut [u64; 2],
        rises: &mut [u64; 1024],
        falls: &mut [u64; 1024],
        names: &mut [u16; 1024],
        order: &mut [u16; 1024],
    ) -> u32;

    pub fn wivakkol_compare_on(
        first: *const u8,
        first_length: usize,
        second: *const u8,
        second_length: usize,
        a: &mut [u8; 36868],
        b: &mut [u8; 36868],
        row: &mut [u64; 3],
        rises: &mut [u64; 1024],
        falls: &mut [u64; 1024],
        names: &mut [u16; 1024],
        order: &mut [u16; 1024],
    ) -> u32;
}

#[cfg(feature = "marks")]
extern "C" {
    pub fn wivakkol_unmark_on(set: &mut [u8; 8]);

    pub fn wivakkol_mark_on(
        table: *const u8,
        length: usize,
        i: u32,
        bytes: &[u8; 1040],
        words: &[u16; 6163],
        numbers: &[u32; 18],
        sums: &[u64; 1027],
        set: &mut [u8; 8],
        markbytes: &mut [u8; 8320],
        markwords: &mut [u16; 49304],
        marknumbers: &mut [u32; 144],
        marksums: &mut [u64; 8216],
        sparebytes: &mut [u8; 1040],
        sparewords: &mut [u16; 6163],
        sparenumbers: &mut [u32; 18],
        sparesums: &mut [u64; 1027],
        next: &mut [u16; 1024],
        status: &mut [u8; 1024],
        amounts: &mut [u64; 1024],
        left: &mut [u16; 1024],
        right: &mut [u16; 1024],
        rises: &mut [u64; 1024],
        falls: &mut [u64; 1024],
        forks: &mut [u16; 1024],
        seen: &mut [u16; 1024],
        list: &mut [u16; 1024],
    ) -> u32;

    pub fn wivakkol_back_on(
        table: *const u8,
        length: usize,
        i: u32,
        bytes: &mut [u8; 1040],
        words: &mut [u16; 6163],
        numbers: &mut [u32; 18],
        sums: &mut [u64; 1027],
        set: &[u8; 8],
        markbytes: &[u8; 8320],
        markwords: &[u16; 49304],
        marknumbers: &[u32; 144],
        marksums: &[u64; 8216],
        sparebytes: &mut [u8; 1040],
        sparewords: &mut [u16; 6163],
        sparenumbers: &mut [u32; 18],
        sparesums: &mut [u64; 1027],
        next: &mut [u16; 1024],
        status: &mut [u8; 1024],
        amounts: &mut [u64; 1024],
        left: &mut [u16; 1024],
        right: &mut [u16; 1024],
        rises: &mut [u64; 1024],
        falls: &mut [u64; 1024],
        forks: &mut [u16; 1024],
        seen: &mut [u16; 1024],
        list: &mut [u16; 1024],
    ) -> u32;
}

#[cfg(feature = "deques")]
extern "C" {
    pub fn wivakkol_deque_turn_on(
        table: *const u8,
        length: usize,
        w: u32,
        c: u32,
        bytes: &mut [u8; 1040],
        words: &mut [u16; 6163],
        numbers: &mut [u32; 18],
        sums: &mut [u64; 1027],
        row: &mut [u64; 5],
    ) -> u32;

    pub fn wivakkol_deque_list_on(
        table: *const u8,
        length: usize,
        order: *const u8,
        order_length: usize,
        bytes: &mut [u8; 1040],
        words: &mut [u16; 6163],
        numbers: &mut [u32; 18],
        sums: &mut [u64; 1027],
        row: &mut [u64; 3],
    ) -> u32;

    pub fn wivakkol_deque_limit_on(
        table: *const u8,
        length: usize,
        p: u32,
        quota: u32,
        c: u32,
        row: &mut [u64; 3],
        rises: &mut [u64; 1024],
        falls: &mut [u64; 1024],
        serials: &mut [u64; 1024],
        depths: &mut [u16; 1024],
        peaks: &mut [u64; 17408],
        rows: &mut [u64; 17408],
        filled: *mut u8,
        room: usize,
    ) -> u32;

    pub fn wivakkol_deque_open_on(
        table: *const u8,
        length: usize,
        settings: &[u32; 2],
        parents: &mut [u16; 1024],
        next: &[u16; 1024],
        status: &[u8; 1024],
        amounts: &[u64; 1024],
        left: &[u16; 1024],
        right: &[u16; 1024],
        under: &[u16; 1024],
        over: &[u16; 1024],
        holds: &[u8; 16],
        threads: &[u16; 16],
        quotas: &[u32; 16],
        heads: &[u16; 3],
        totals: &[u64; 3],
        row: &mut [u64; 1],
        rises: &mut [u64; 1024],
        falls: &mut [u64; 1024],
        forks: &mut [u16; 1024],
        seen: &mut [u16; 1024],
        list: &mut [u16; 1024],
    ) -> u32;
}

#[cfg(feature = "desk")]
extern "C" {
    pub fn wivakkol_assemble_on(
        text: *const u8,
        length: usize,
        out: *mut u8,
        room: usize,
        row: &mut [u64; 6],
        rises: &mut [u64; 1024],
        falls: &mut [u64; 1024],
        peaks: &mut [u64; 1024],
        depths: &mut [u16; 1024],
    ) -> u32;

    pub fn wivakkol_disassemble_on(
        table: *const u8,
        length: usize,
        out: *mut u8,
        room: usize,
        row: &mut [u64; 2],
        rises: &mut [u64; 1024],
        falls: &mut [u64; 1024],
        peaks: &mut [u64; 1024],
        depths: &mut [u16; 1024],
    ) -> u32;
}

#[cfg(feature = "pace")]
extern "C" {
    pub fn wivakkol_pace_begin_on(p: u32, b: u32, pace: &mut [u32; 260]) -> u32;

    pub fn wivakkol_may_on(pace: &[u32; 260], w: u32) -> u32;

    pub fn wivakkol_kept_on(pace: &[u32; 260]) -> u32;

    pub fn wivakkol_took_on(pace: &mut [u32; 260], w: u32) -> u32;

    pub fn wivakkol_paced_turn_on(
        table: *const u8,
        length: usize,
        w: u32,
        bytes: &mut [u8; 1040],
        words: &mut [u16; 6163],
        numbers: &mut [u32; 18],
        sums: &mut [u64; 1027],
        pace: &mut [u32; 260],
        row: &mut [u64; 5],
    ) -> u32;

    pub fn wivakkol_paced_list_on(
        table: *const u8,
        length: usize,
        order: *const u8,
        turns: usize,
        bytes: &mut [u8; 1040],
        words: &mut [u16; 6163],
        numbers: &mut [u32; 18],
        sums: &mut [u64; 1027],
        pace: &mut [u32; 260],
        row: &mut [u64; 3],
    ) -> u32;

    pub fn wivakkol_paced_rounds_on(
        table: *const u8,
        length: usize,
        limit: u32,
        bytes: &mut [u8; 1040],
        words: &mut [u16; 6163],
        numbers: &mut [u32; 18],
        sums: &mut [u64; 1027],
        pace: &mut [u32; 260],
        row: &mut [u64; 3],
    ) -> u32;
}
