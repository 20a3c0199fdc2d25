//! Document 01's listing of E, its marked cases, and every refusal that these calls give.
use crate::model::Action::{self, *};
use crate::model::{bytes, Table};
use std::sync::Mutex;
use wivakkol::{
    action, Facts, Fit, LimitWork, Limits, Memory, Preview, Refusal, Reply, Report, Run, Status, Stopped, TablesWork, Turn, Work, MOST_THREADS, MOST_WORKERS,
    TABLE_MOST,
};

const LISTING: &str = "\
1 0 0 0 fork 0
2 1 1 5 alloc 6
3 0 0 1 fork 6
4 1 1 6 work 6
5 0 2 9 alloc 12
6 1 1 7 free 6
7 0 2 10 free 0
8 1 1 8 end 0
9 0 2 11 end 0
10 1 0 2 join 0
11 0 - - idle 0
12 1 0 3 join 0
13 0 - - idle 0
14 1 0 4 end 0
done 14 peak 12
";

pub fn e() -> Table {
    vec![vec![Fork(1), Fork(2), Join(2), Join(1), End], vec![Alloc(6), Work, Free(6), End], vec![Alloc(6), Free(6), End]]
}

pub fn refused(number: u32, place: u64) -> Refusal {
    Refusal { number, place }
}

fn check(table: &[u8]) -> Result<Facts, Refusal> {
    wivakkol::check(&mut TablesWork::new(), table)
}

fn largest_quota(table: &[u8], p: u32, b: u32, memory: u64) -> Result<u32, Refusal> {
    wivakkol::largest_quota(&mut TablesWork::new(), table, p, b, memory)
}

fn most_turns(table: &[u8], p: u32, quota: u32) -> Result<u32, Refusal> {
    wivakkol::most_turns(&mut TablesWork::new(), table, p, quota)
}

/// Why a run of this table with p workers and quota K is not begun.
fn fault(table: &[u8], p: u32, quota: u32) -> Option<Refusal> {
    Run::begin(table, &mut Memory::new(), &mut Work::new(), p, quota).err()
}

/// A turn for each worker of the order, as lines of document 01's listing; the action of a turn that was not done is the thread's next.
fn listing(run: &mut Run, actions: &[Action], order: &[u32]) -> String {
    let mut lines = String::new();
    for (i, w) in order.iter().enumerate() {
        let reply = run.turn(*w).unwrap().reply;
        let (thread, what) = match reply {
            Reply::Idle => (None, "idle"),
            Reply::Done { thread, action } => (Some((thread, action)), actions[usize::from(action)].name()),
            Reply::Quota { thread, .. } => (Some((thread, run.next_action(thread).unwrap())), "quota"),
            Reply::Wait { thread, .. } => (Some((thread, run.next_action(thread).unwrap())), "wait"),
        };
        let thread = thread.map_or("- -".to_string(), |(t, a)| format!("{t} {a}"));
        lines += &format!("{} {w} {thread} {what} {}\n", i + 1, run.held());
    }
    let end = if run.ended() { "done" } else { "open" };
    lines + &format!("{end} {} peak {}\n", run.turns(), run.highest())
}

#[test]
fn listing_of_e() {
    let (table, mut memory) = (bytes(&e()), Memory::new());
    let mut run = Run::begin(&table, &mut memory, &mut Work::new(), 2, 6).unwrap();
    let actions: Vec<Action> = e().concat();
    let order: Vec<u32> = (0..14).map(|i| i % 2).collect();
    assert_eq!(listing(&mut run, &actions, &order), LISTING);
    assert_eq!(run.turn(0), Err(refused(31, 0)));
    assert_eq!(table, std::fs::read("../../examples/e.table").unwrap());
}

/// E with K 5: trees of two dummies in front of both allocs, 44 turns of two workers in rounds. The refused beginning in too short a buffer leaves it as it was.
#[test]
fn filled_out() {
    let (table, mut memory, mut filled) = (bytes(&e()), Memory::new(), [0xa5; 176]);
    let mut run = Run::begin_filling(&table, &mut filled, &mut memory, &mut Work::new(), 2, 5).unwrap();
    let facts = check(run.table()).unwrap();
    assert_eq!(facts, Facts { threads: 9, actions: 34, peak: 6, depth: 17, nested: 4 });
    assert_eq!(run.rounds(u32::MAX), Ok(Report::Finished { turns: 44 }));
    assert_eq!(run.highest(), 6);

    let mut short = [0xa5; 175];
    let refusal = Run::begin_filling(&table, &mut short, &mut memory, &mut Work::new(), 2, 5).err();
    assert_eq!((refusal, short), (Some(refused(61, 0)), [0xa5; 175]));
    assert_eq!(memory.to_bytes(), Memory::new().to_bytes());

    let run = Run::begin_filling(&table, &mut filled, &mut memory, &mut Work::new(), 2, 6).unwrap();
    assert_eq!(run.table(), table);
    let mut most = [0; TABLE_MOST];
    let largest = bytes(&vec![[vec![Work; 4609], vec![Alloc(512), End]].concat()]);
    let run = Run::begin_filling(&largest, &mut most, &mut memory, &mut Work::new(), 1, 1).unwrap();
    assert_eq!(run.table().len(), TABLE_MOST);
}

#[test]
fn marked_cases() {
    let table = bytes(&e());
    assert_eq!(check(&table), Ok(Facts { threads: 3, actions: 12, peak: 6, depth: 8, nested: 2 }));

    let mut memory = Memory::new();
    let mut run = Run::begin(&table, &mut memory, &mut Work::new(), 1, 6).unwrap();
    assert_eq!(run.rounds(u32::MAX), Ok(Report::Finished { turns: 12 }));
    assert_eq!(run.highest(), 6);

    let mut one = vec![1, 0, 1, 0, 0, 0, 1, 0, 0, 0, 0, 0];
    assert_eq!(check(&one).map(|facts| (facts.peak, facts.depth)), Ok((0, 1)));
    let mut run = Run::begin(&one, &mut memory, &mut Work::new(), 1, 1).unwrap();
    assert_eq!(run.turn(0).unwrap().reply, Reply::Done { thread: 0, action: 0 });
    assert!(run.ended());
    one.push(0);
    assert_eq!(check(&one), Err(refused(3, 0)));
    assert_eq!(check(&[]), Err(refused(1, 0)));

    let twice = bytes(&vec![vec![Alloc(4), Alloc(4), End]]);
    let mut run = Run::begin(&twice, &mut memory, &mut Work::new(), 1, 6).unwrap();
    run.turn(0).unwrap();
    assert_eq!(run.turn(0).unwrap().reply, Reply::Quota { thread: 0, wanted: 4 });
    assert_eq!(run.rounds(u32::MAX), Ok(Report::Finished { turns: 2 }));
    assert_eq!((run.turns(), run.held(), check(&twice).unwrap().peak), (4, 8, 8));
    let mut run = Run::begin(&twice, &mut memory, &mut Work::new(), 1, 8).unwrap();
    assert_eq!(run.rounds(u32::MAX), Ok(Report::Finished { turns: 3 }));

    assert_eq!(check(&bytes(&vec![vec![Alloc(6), Free(7), End]])), Err(refused(10, 1)));
    let mut swapped = e();
    swapped[0].swap(2, 3);
    assert_eq!(check(&bytes(&swapped)), Err(refused(9, 2)));

    let mut run = Run::begin(&table, &mut memory, &mut Work::new(), 2, 6).unwrap();
    assert_eq!(run.list(&[0, 1, 0, 1, 1, 1, 1]), Ok(Report::Spent { turns: 7 }));
    assert_eq!(run.turn(2), Err(refused(30, 0)));
    assert_eq!(run.list(&[2]), Err(Stopped { refusal: refused(30, 0), turns: 0 }));
    assert_eq!(run.turn(0).unwrap().reply, Reply::Wait { thread: 0, child: 2 });
}

/// "ends thread 1 while thread 0 goes on waiting for thread 2"
#[test]
fn waits_for_another_child() {
    let (table, mut memory) = (bytes(&e()), Memory::new());
    let mut run = Run::begin(&table, &mut memory, &mut Work::new(), 3, 6).unwrap();
    assert_eq!(run.list(&[0, 1, 0, 2, 0]), Ok(Report::Spent { turns: 5 }));
    assert_eq!(run.status(0), Some(Status::Waiting));
    assert_eq!(run.list(&[1, 1, 1]), Ok(Report::Spent { turns: 3 }));
    assert_eq!((run.status(1), run.status(0)), (Some(Status::Ended), Some(Status::Waiting)));
    assert_eq!(run.threads().collect::<Vec<_>>(), [2, 0]);
}

#[test]
fn limits() {
    let (table, mut memory) = (bytes(&e()), Memory::new());
    let mut run = Run::begin(&table, &mut memory, &mut Work::new(), 2, 6).unwrap();
    assert_eq!(run.rounds(0), Ok(Report::Spent { turns: 0 }));
    assert_eq!(run.list(&[]), Ok(Report::Spent { turns: 0 }));
    assert_eq!(run.list(&[0, 1, 7, 0]), Err(Stopped { refusal: refused(30, 0), turns: 2 }));
    assert_eq!((run.turns(), run.held()), (2, 6));
    assert_eq!(run.rounds(u32::MAX), Ok(Report::Finished { turns: 12 }));
    assert_eq!(run.rounds(5), Ok(Report::Finished { turns: 0 }));
    assert_eq!(run.threads().count(), 0);
    let fan = |n: u16| bytes(&[vec![(1..n).map(Fork).chain((1..n).rev().map(Join)).chain([End]).collect()], vec![vec![End]; usize::from(n) - 1]].concat());
    assert_eq!(check(&fan(1024)).unwrap().threads, 1024);
    assert_eq!(check(&fan(1025)), Err(refused(2, 0)));
    assert_eq!(check(&[0xff; 100_000]), Err(refused(2, 0)));
}

/// 1,024 threads, each forking the next: every action depends on the one before it in serial order, so D is their number.
#[test]
fn nested_threads() {
    let nested = |n: u16| bytes(&(0..n).map(|t| if t + 1 < n { vec![Fork(t + 1), Join(t + 1), End] } else { vec![Alloc(9), End] }).collect());
    let mut work = TablesWork::new();
    let facts = Facts { threads: 1024, actions: 3071, peak: 9, depth: 3071, nested: 1024 };
    assert_eq!(wivakkol::check(&mut work, &nested(1024)), Ok(facts));
    assert_eq!(wivakkol::largest_quota(&mut work, &nested(1024), 16, 1, 9 + 15 * 3070 * 9), Ok(9));
    assert_eq!(wivakkol::largest_quota(&mut work, &nested(1024), 16, 1, 8 + 15 * 3070 * 9), Err(refused(42, 0)));
}

#[test]
fn refusals_of_a_table() {
    let with = |at: usize, x: u8| {
        let mut table = bytes(&e());
        table[at] = x;
        check(&table).unwrap_err()
    };
    assert_eq!(check(&[1, 0, 1]), Err(refused(1, 0)));
    assert_eq!(with(0, 0), refused(2, 0));
    assert_eq!(with(0, 4), refused(3, 0));
    assert_eq!(with(8, 6), refused(4, 1));
    assert_eq!(with(14, 2), refused(4, 3));
    assert_eq!(with(16, 6), refused(5, 0));
    assert_eq!(with(17, 3), refused(6, 0));
    assert_eq!(with(40, 0), refused(7, 6));
    assert_eq!(with(21, 1), refused(8, 1));
    assert_eq!(with(25, 1), refused(9, 2));
    assert_eq!(with(45, 7), refused(10, 3));
    assert_eq!(check(&bytes(&vec![vec![End], vec![End]])), Err(refused(11, 1)));
}

#[test]
fn refusals_of_a_beginning_and_a_quota() {
    let table = bytes(&e());
    for p in [0, 17, 256, 258, u32::MAX] {
        assert_eq!(fault(&table, p, 6), Some(refused(20, 0)));
        assert_eq!(largest_quota(&table, p, 1, 55), Err(refused(20, 0)));
    }
    for quota in [0, 1 << 24, u32::MAX] {
        assert_eq!(fault(&table, 2, quota), Some(refused(21, 0)));
    }
    assert_eq!(fault(&table, 2, 5), Some(refused(61, 0)));
    assert_eq!(fault(&bytes(&vec![vec![Alloc(513), End]]), 1, 1), Some(refused(44, 0)));
    assert_eq!(fault(&[], 0, 0), Some(refused(1, 0)));
    assert_eq!(largest_quota(&table, 2, 1, 55), Ok(7));
    assert_eq!(largest_quota(&table, 2, 1, 54), Ok(6));
    assert_eq!(largest_quota(&table, 2, 1, 47), Err(refused(42, 0)));
    for b in [0, 65536] {
        assert_eq!(largest_quota(&table, 2, b, 55), Err(refused(41, 0)));
    }
}

fn limit(table: &[u8], filled: &mut [u8], p: u32, quota: u32, b: u32) -> Result<Limits, Refusal> {
    wivakkol::limit(&mut LimitWork::new(), table, filled, p, quota, b)
}

fn fit(table: &[u8], p: u32, b: u32, memory: u64) -> Result<Fit, Refusal> {
    wivakkol::fit(&mut LimitWork::new(), table, p, b, memory)
}

/// 127 threads, each with the two below it, and 128 leaves: examples/tree.text.
fn tree() -> Table {
    fn grow(table: &mut Table, levels: u16) -> u16 {
        let t = table.len();
        table.push(vec![Alloc(8), Work, Alloc(4), Free(12), End]);
        if levels > 0 {
            let (a, b) = (grow(table, levels - 1), grow(table, levels - 1));
            table[t] = vec![Alloc(4), Fork(a), Fork(b), Join(b), Join(a), Free(4), End];
        }
        t as u16
    }
    let mut table = Vec::new();
    grow(&mut table, 7);
    table
}

#[test]
fn useful_limit_of_a_table() {
    let (table, mut filled) = (bytes(&e()), [0; TABLE_MOST]);
    let of_e = |stretch| Limits { memory: 12, serial: 6, peak: 12, parallel: 12, stretch };
    assert_eq!(limit(&table, &mut [], 2, 6, 1), Ok(of_e(6)));
    assert_eq!(limit(&table, &mut filled, 2, 5, 1), Ok(of_e(0)));
    assert_eq!(check(&filled[..176]).map(|facts| facts.threads), Ok(9));
    assert_eq!(limit(&table, &mut filled[..175], 2, 5, 1), Err(refused(61, 0)));
    assert_eq!(limit(&table, &mut [], 2, 6, 65536), Err(refused(41, 0)));
    assert_eq!(limit(&table, &mut [], 2, 0, 0), Err(refused(21, 0)));
    assert_eq!(limit(&table, &mut [], 258, 0, 65536), Err(refused(20, 0)));
    assert_eq!(limit(&[1, 0, 1], &mut [], 0, 0, 65536), Err(refused(1, 0)));
    assert_eq!(limit(&bytes(&vec![vec![Alloc(513), End]]), &mut filled, 1, 1, 0), Err(refused(44, 0)));
    assert_eq!(limit(&bytes(&tree()), &mut [], 4, 12, 0), Ok(Limits { memory: 440, serial: 40, peak: 1160, parallel: 2044, stretch: 12 }));
}

#[test]
fn quota_that_fits() {
    let (e, tree) = (bytes(&e()), bytes(&tree()));
    assert_eq!(fit(&e, 2, 1, 55), Ok(Fit::Fits { quota: 16777215, memory: 12 }));
    assert_eq!(fit(&e, 2, 1, 11), Ok(Fit::Short { quota: 6, memory: 12 }));
    assert_eq!(fit(&tree, 4, 0, 440), Ok(Fit::Fits { quota: 16777215, memory: 440 }));
    assert_eq!(fit(&tree, 4, 0, 439), Ok(Fit::Short { quota: 12, memory: 440 }));
    assert_eq!(fit(&e, 0, 65536, 0), Err(refused(20, 0)));
    assert_eq!(fit(&e, 258, 0, 0), Err(refused(20, 0)));
    assert_eq!(fit(&e, 2, 65536, 0), Err(refused(41, 0)));
    assert_eq!(fit(&[1, 0, 1], 2, 1, 55), Err(refused(1, 0)));
}

/// N8: p × (m + A + J) turns in rounds always finish; refused as a beginning is.
#[test]
fn most_turns_of_a_run_in_rounds() {
    let table = bytes(&e());
    assert_eq!(most_turns(&table, 2, 6), Ok(32));
    assert_eq!(most_turns(&table, 2, 5), Ok(88));
    assert_eq!(most_turns(&table, 16, 5), Ok(704));
    for p in 1..=16 {
        let (mut memory, mut work) = (Memory::new(), Work::new());
        let limit = most_turns(&table, p, 6).unwrap();
        assert_eq!(limit, 16 * p);
        let mut run = Run::begin(&table, &mut memory, &mut work, p, 6).unwrap();
        assert!(matches!(run.rounds(limit), Ok(Report::Finished { .. })));
    }
    let mut work = TablesWork::new();
    let large = bytes(&vec![vec![Alloc(513), End]]);
    assert_eq!(wivakkol::most_turns(&mut work, &large, 1, 1), Err(refused(44, 0)));
    assert_eq!(wivakkol::most_turns(&mut work, &large, 1, 2), Ok(3 + 9 * 257 - 4));
    for p in [0, 17, 256, 258, u32::MAX] {
        assert_eq!(most_turns(&large, p, 0), Err(refused(20, 0)));
    }
    for quota in [0, 1 << 24, u32::MAX] {
        assert_eq!(most_turns(&large, 2, quota), Err(refused(21, 0)));
    }
    assert_eq!(most_turns(&[], 0, 0), Err(refused(1, 0)));
}

/// Where numbers stand in the bytes of a run.
const TURNS: usize = 8208;
const PARENTS: usize = 8288;
const HOLDS: usize = 21638;

/// E with two workers after seven turns, put away.
fn put_away() -> (Vec<u8>, [u8; Memory::BYTES]) {
    let (table, mut memory) = (bytes(&e()), Memory::new());
    let mut run = Run::begin(&table, &mut memory, &mut Work::new(), 2, 6).unwrap();
    assert_eq!(run.rounds(7), Ok(Report::Spent { turns: 7 }));
    (table, memory.to_bytes())
}

/// What opening says of such bytes; where it is refused, they are as they were.
fn opened(table: &[u8], kept: &[u8; Memory::BYTES]) -> Result<[u8; Memory::BYTES], Refusal> {
    let mut memory = Memory::from_bytes(kept);
    let answer = Run::open(table, &mut memory, &mut Work::new()).map(|_| ());
    assert!(answer.is_ok() || memory.to_bytes() == *kept);
    answer.map(|()| memory.to_bytes())
}

#[test]
fn a_run_brought_back() {
    let (table, kept) = put_away();
    assert_eq!(opened(&table, &kept), Ok(kept));
    let mut memory = Memory::from_bytes(&kept).clone();
    let mut run = Run::open(&table, &mut memory, &mut Work::new()).unwrap();
    assert_eq!((run.workers(), run.quota(), run.turns(), run.highest()), (2, 6, 7, 12));
    assert_eq!(run.rounds(u32::MAX), Ok(Report::Finished { turns: 7 }));
    assert_eq!(opened(&table, &memory.to_bytes()), Ok(memory.to_bytes()));
}

#[test]
fn what_opening_tests() {
    let (table, kept) = put_away();
    let with = |at: usize, number: &[u8]| {
        let mut kept = kept;
        kept[at..at + number.len()].copy_from_slice(number);
        kept
    };
    assert_eq!(opened(&bytes(&vec![vec![End]]), &kept), Err(refused(32, 0)));
    assert_eq!(opened(&[], &kept), Err(refused(32, 0)));
    assert_eq!(opened(&table, &with(8 * 700, &[1])), Err(refused(32, 0)));
    let holder = (HOLDS..HOLDS + 2).find(|at| kept[*at] == 1).unwrap();
    assert_eq!(opened(&table, &with(holder, &[2])), Err(refused(32, 0)));
    assert_eq!(opened(&table, &with(TURNS, &[0xff; 8])), Err(refused(32, 0)));
    assert_eq!(opened(&table, &with(PARENTS, &[9; 2048])), Ok(kept));
}

/// A sound record that no run of one worker comes to: it holds 12, and the limit is 6.
#[test]
fn a_record_made_up() {
    let (table, mut memory) = (bytes(&e()), Memory::new());
    let mut run = Run::begin(&table, &mut memory, &mut Work::new(), 2, 6).unwrap();
    assert_eq!(run.list(&[0, 1, 0, 0]), Ok(Report::Spent { turns: 4 }));
    assert_eq!((run.held(), run.worker(0), run.worker(1)), (12, Some((2, 0)), Some((1, 0))));
    let mut kept = memory.to_bytes();
    kept[8216] = 1; // p
    assert_eq!(opened(&table, &kept), Err(refused(32, 0)));
    kept[8224..8288].fill(0); // no worker holds a thread: quotas, threads, the set, truth values; threads 1 and 2 are ready
    kept[20576..20608].fill(0);
    kept[20612..20614].fill(0);
    kept[20615..20617].fill(1);
    kept[HOLDS..].fill(0);
    let mut memory = Memory::from_bytes(&kept);
    let mut run = Run::open(&table, &mut memory, &mut Work::new()).unwrap();
    assert_eq!((run.workers(), run.held(), run.threads().collect::<Vec<_>>()), (1, 12, vec![1, 2, 0]));
    assert_eq!(run.rounds(u32::MAX), Ok(Report::Finished { turns: 8 }));
}

#[test]
fn the_blank_record() {
    let (table, mut memory, mut work) = (bytes(&e()), Memory::new(), Work::new());
    let mut run = Run::open(&table, &mut memory, &mut work).unwrap();
    assert_eq!((run.workers(), run.threads().count(), run.turn(0)), (0, 0, Err(refused(30, 0))));
    assert_eq!(run.preview(0), Err(refused(30, 0)));
    assert_eq!(run.wall_line(&mut work).unwrap()[..], *format!("{:>6}{:64}{:>14}\n", 0, "", 0).as_bytes());
}

#[test]
fn previews_and_lines() {
    let (table, kept) = put_away();
    let (mut memory, mut work) = (Memory::from_bytes(&kept), Work::new());
    let mut run = Run::open(&table, &mut memory, &mut work).unwrap();
    let turn = Turn { reply: Reply::Done { thread: 1, action: 8 }, passed: 0 };
    assert_eq!(run.preview(1), Ok(Preview { turn, held: 0, highest: 12, quota: 0 }));
    assert_eq!(run.preview(2), Err(refused(30, 0)));
    assert_eq!(run.wall_line(&mut work).unwrap()[..], *format!("     7   2   1{:56}{:>14}\n", "", 0).as_bytes());
    run.rounds(u32::MAX).unwrap();
    assert_eq!(run.preview(0), Err(refused(31, 0)));

    let line_after = |turns: u64| {
        let mut kept = kept;
        kept[TURNS..TURNS + 8].copy_from_slice(&turns.to_le_bytes());
        let (mut memory, mut work) = (Memory::from_bytes(&kept), Work::new());
        let mut run = Run::open(&table, &mut memory, &mut work).unwrap();
        run.turn(0).unwrap();
        assert_eq!(run.preview(0).is_ok(), turns < u64::MAX - 1);
        run.wall_line(&mut work).map(|line| line[..6].to_vec())
    };
    assert_eq!(line_after(999_998), Ok(b"999999".to_vec()));
    assert_eq!(line_after(999_999), Err(refused(43, 0)));
    assert_eq!(line_after(u64::MAX - 2), Err(refused(43, 0)));
    assert_eq!(line_after(u64::MAX - 1), Err(refused(32, 0)));
}

#[test]
fn texts() {
    assert_eq!(refused(44, 5).to_string(), "refused 44 at action 5: the filled-out table would pass 1,024 threads or 8,192 actions");
    assert_eq!(refused(11, 1).to_string(), "refused 11 at thread 1: the thread, not the root, is forked nowhere");
    assert_eq!(refused(30, 0).to_string(), "refused 30: the worker is not below p");
    let stopped = Stopped { refusal: refused(30, 0), turns: 2 };
    assert_eq!(stopped.to_string(), "refused 30: the worker is not below p (after 2 turns)");
    assert_eq!(format!("{stopped:?}"), stopped.to_string());
}

/// The meanings are those of docs/REFERENCE.md, but for what 32 means in lent memory and for words about which action is given.
#[test]
fn texts_are_of_the_reference() {
    let reference = std::fs::read_to_string("../../docs/REFERENCE.md").unwrap();
    for number in [1, 2, 3, 4, 5, 6, 7, 8, 9, 10, 11, 20, 21, 30, 31, 41, 42, 43, 44, 45, 46, 47, 48, 49, 60, 61] {
        for part in refused(number, 0).meaning().split("; at entry n, ") {
            let row = |line: &str| line.starts_with(&format!("| {number} |")) && line.contains(part);
            assert!(reference.lines().any(row), "{number}: {part}");
        }
    }
}

/// Origins of E's actions with K 5, where two pairs of them and the dummies are put in, and with K 6, where it runs as given.
#[test]
fn origins() {
    let (table, mut memory, mut filled, mut work) = (bytes(&e()), Memory::new(), [0; 176], Work::new());
    let run = Run::begin_filling(&table, &mut filled, &mut memory, &mut work, 2, 5).unwrap();
    let mut wanted = [None; 36];
    for (given, at) in (0..12).zip([0, 1, 2, 3, 4, 7, 8, 9, 10, 13, 14, 15]) {
        wanted[at] = Some(given);
        assert_eq!(run.action(at as u16), action(&table, u64::from(given)));
    }
    assert_eq!(std::array::from_fn(|a| run.origin(a as u16)), wanted);
    assert_eq!((0..13).map(|a| wivakkol::origin(&table, 6, a)).collect::<Vec<_>>(), [(0..12).map(Some).collect(), vec![None]].concat());
    assert_eq!([0, 1 << 24, u32::MAX].map(|quota| wivakkol::origin(&table, quota, 0)), [None; 3]);
    assert_eq!(wivakkol::origin(&[], 5, 0), None);
}

/// A run in a box is put away and taken up in it: the box is handed back, as it was where the opening is refused.
#[test]
fn memory_in_a_box() {
    let (table, mut memory, mut work) = (bytes(&e()), Box::new(Memory::new()), Work::new());
    let place: *const Memory = &*memory;
    Run::begin(&table, &mut memory, &mut work, 2, 6).unwrap();
    for turns in [0, 3, 6] {
        let mut run = Run::open_in(&table, memory, &mut work).unwrap();
        assert_eq!((run.turns(), run.rounds(3)), (turns, Ok(Report::Spent { turns: 3 })));
        memory = run.into_memory();
        assert!(std::ptr::eq(place, &*memory));
    }
    let kept = memory.to_bytes();
    let refused_memory = Run::open_in(&[], memory, &mut work).err().unwrap();
    assert_eq!((refused_memory.refusal, refused_memory.to_string()), (refused(32, 0), refused(32, 0).to_string()));
    assert_eq!(format!("{refused_memory:?}"), refused_memory.to_string());
    assert!(std::ptr::eq(place, &*refused_memory.memory) && refused_memory.memory.to_bytes() == kept);
}

/// Memory that was borrowed is handed back for as long as it was lent, beside the filled-out table that was lent with it; a lock's guard likewise.
#[test]
fn memory_handed_back() {
    let (table, mut memory, mut filled, mut work) = (bytes(&e()), Memory::new(), [0; 176], Work::new());
    let mut run = Run::begin_filling(&table, &mut filled, &mut memory, &mut work, 2, 5).unwrap();
    assert_eq!(run.rounds(20), Ok(Report::Spent { turns: 20 }));
    let (table, memory) = (run.table(), run.into_memory());
    let mut run = Run::open(table, memory, &mut work).unwrap();
    assert_eq!((run.rounds(u32::MAX), run.turns()), (Ok(Report::Finished { turns: 24 }), 44));

    static MEMORY: Mutex<Memory> = Mutex::new(Memory::new());
    let run = Run::open_in(table, MEMORY.lock().unwrap(), &mut work).unwrap();
    assert_eq!(run.workers(), 0);
    assert!(MEMORY.try_lock().is_err());
    drop(run.into_memory());
    assert!(MEMORY.try_lock().is_ok());
}

/// A run's memory in a static, and a memory used again after a refusal.
#[test]
fn memory_in_a_static() {
    static MEMORY: Mutex<Memory> = Mutex::new(Memory::new());
    let table = bytes(&e());
    let mut memory = MEMORY.lock().unwrap();
    assert!(Run::begin(&table, &mut memory, &mut Work::new(), 2, 5).is_err());
    let mut run = Run::begin(&table, &mut memory, &mut Work::new(), 2, 6).unwrap();
    assert_eq!((run.workers(), run.quota()), (2, 6));
    assert_eq!(run.rounds(u32::MAX), Ok(Report::Finished { turns: 14 }));
}

/// Actions by number: all of E's, and what is none, also where the number would be cut to one of the table's; and bytes that are no table.
#[test]
fn actions_by_name() {
    use wivakkol::Action as Named;
    let named = |x: &Action| match *x {
        End => Named::End,
        Work => Named::Work,
        Alloc(amount) => Named::Alloc { amount },
        Free(amount) => Named::Free { amount },
        Fork(child) => Named::Fork { child },
        Join(child) => Named::Join { child },
    };
    let table = bytes(&e());
    let found: Vec<_> = (0..12).map(|a| action(&table, a).unwrap()).collect();
    assert_eq!(found, e().concat().iter().map(named).collect::<Vec<_>>());
    assert_eq!([12, 65535, 65536, 1 << 32, u64::MAX].map(|a| action(&table, a)), [None; 5]);
    assert_eq!(action(&[], 0), None);
    let odd = |word: [u8; 4]| action(&[&[1, 0, 1, 0, 0, 0, 1, 0], &word[..]].concat(), 0);
    assert_eq!([odd([6, 0, 0, 0]), odd([255, 0, 0, 0]), odd([4, 0, 0, 1]), odd([5, 0, 0, 255])], [None; 4]);
    assert_eq!(odd([2, 255, 255, 255]), Some(Named::Alloc { amount: 16_777_215 }));

    let mut memory = Memory::new();
    let mut run = Run::begin(&table, &mut memory, &mut Work::new(), 2, 6).unwrap();
    let Reply::Done { action, .. } = run.turn(0).unwrap().reply else { panic!("the first turn is done") };
    assert_eq!((run.action(action), run.action(12)), (Some(Named::Fork { child: 1 }), None));
}

/// What is printed of a refusal where `main` ends with `?`, and of a run.
#[test]
fn printed() {
    assert_eq!(format!("{:?}", refused(10, 3)), "refused 10 at action 3: the thread's balance falls below 0");
    assert_eq!(format!("{:?}", refused(31, 0)), "refused 31: the root has ended");
    let (table, mut memory) = (bytes(&e()), Memory::new());
    let mut run = Run::begin(&table, &mut memory, &mut Work::new(), 2, 6).unwrap();
    run.list(&[0, 1, 0, 1, 0]).unwrap();
    assert_eq!(format!("{run:?}"), "Run { workers: 2, quota: 6, turns: 5, held: 12, highest: 12, ended: false, .. }");
}

/// The most workers and threads are those of the calls.
#[test]
fn most_of_each() {
    let most = MOST_WORKERS as u32;
    let table = bytes(&e());
    assert_eq!((fault(&table, most, 6), fault(&table, most + 1, 6)), (None, Some(refused(20, 0))));
    let mut memory = Memory::new();
    let run = Run::begin(&table, &mut memory, &mut Work::new(), 2, 6).unwrap();
    let last = MOST_THREADS as u16 - 1;
    assert_eq!((run.status(last), run.status(last + 1)), (Some(Status::Unborn), None));
}
