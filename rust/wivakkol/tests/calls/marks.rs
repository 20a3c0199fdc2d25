//! Marks: the worked case, every refusal in its order, damaged marks, the blank run; random runs with marks, compared with the machine of the model and copies of it.
use crate::cases::{e, refused};
use crate::model::Action::End;
use crate::model::{bytes, Draw, Machine};
use crate::random::{drawn, firsts, same, take};
use std::sync::Mutex;
use wivakkol::{Marks, MarksWork, Memory, Report, Run, Status};

/// Where numbers stand in the bytes of a run.
const HELD: usize = 8192;
const TURNS: usize = 8208;

/// What the set marks keep.
fn kept(marks: &Marks) -> Vec<Option<[u8; Memory::BYTES]>> {
    (0..8).map(|i| marks.get(i).map(|memory| memory.to_bytes())).collect()
}

fn which_set(marks: &Marks) -> Vec<u32> {
    (0..8).filter(|i| marks.get(*i).is_some()).collect()
}

fn totals(run: &Run) -> (u64, u64, u64) {
    (run.held(), run.highest(), run.turns())
}

/// The memory with a number of it changed.
fn with(memory: &Memory, at: usize, number: &[u8]) -> Memory {
    let mut kept = memory.to_bytes();
    kept[at..at + number.len()].copy_from_slice(number);
    Memory::from_bytes(&kept)
}

/// E after the turns 0 1 0 and 1 0, p 2, K 6, with mark 2 set between them.
#[test]
fn worked_case() {
    let (table, mut memory, mut marks, mut work) = (bytes(&e()), Memory::new(), Box::new(Marks::new()), MarksWork::new());
    let mut run = Run::begin(&table, &mut memory, work.work(), 2, 6).unwrap();
    assert_eq!(run.list(&[0, 1, 0]), Ok(Report::Spent { turns: 3 }));
    assert_eq!(run.back(&marks, &mut work, 2), Err(refused(46, 0)));
    assert_eq!(run.mark(&mut marks, &mut work, 2), Ok(()));
    assert_eq!(which_set(&marks), [2]);
    assert_eq!(run.list(&[1, 0]), Ok(Report::Spent { turns: 2 }));
    assert_eq!((totals(&run), run.threads().collect::<Vec<_>>()), ((12, 12, 5), vec![1, 2, 0]));
    assert_eq!(run.back(&marks, &mut work, 3), Err(refused(46, 0)));
    assert_eq!(run.back(&marks, &mut work, 8), Err(refused(45, 0)));
    assert_eq!(totals(&run), (12, 12, 5));

    for order in [[1, 0], [0, 1]] {
        assert_eq!(run.back(&marks, &mut work, 2), Ok(()));
        assert_eq!((totals(&run), run.status(2), run.worker(1)), ((6, 6, 3), Some(Status::Ready), Some((1, 0))));
        assert_eq!(run.back(&marks, &mut work, 2), Ok(())); // twice
        assert_eq!(run.list(&order), Ok(Report::Spent { turns: 2 }));
        assert_eq!(totals(&run), (12, 12, 5));
    }
    run.back(&marks, &mut work, 2).unwrap(); // an order that holds less: thread 1 frees its memory before thread 2 draws
    assert_eq!((run.list(&[1, 1, 0]), totals(&run)), (Ok(Report::Spent { turns: 3 }), (6, 6, 6)));
    run.back(&marks, &mut work, 2).unwrap();
    run.list(&[1, 0]).unwrap();
    run.mark(&mut marks, &mut work, 2).unwrap(); // replaced
    assert_eq!(run.rounds(u32::MAX), Ok(Report::Finished { turns: 9 }));
    run.mark(&mut marks, &mut work, 7).unwrap();
    assert_eq!(run.back(&marks, &mut work, 2), Ok(()));
    assert_eq!((totals(&run), run.ended()), ((12, 12, 5), false));
    assert_eq!(run.back(&marks, &mut work, 7), Ok(()));
    assert_eq!((run.turns(), run.ended(), run.turn(0)), (14, true, Err(refused(31, 0))));
    assert_eq!(which_set(&marks), [2, 7]);
    marks.clear();
    assert_eq!((which_set(&marks), run.back(&marks, &mut work, 2)), (vec![], Err(refused(46, 0))));
}

/// Every mark has a place of its own, and setting one or going back leaves the others and the run or the marks as they are.
#[test]
fn eight_marks() {
    let (table, mut memory, mut marks, mut work) = (bytes(&e()), Memory::new(), Box::new(Marks::new()), MarksWork::new());
    let mut run = Run::begin(&table, &mut memory, work.work(), 2, 6).unwrap();
    for i in [3, 0, 7, 1, 2, 6, 5, 4] {
        let before = kept(&marks);
        run.mark(&mut marks, &mut work, i).unwrap();
        let after = kept(&marks);
        assert!((0..8).all(|j| j == i as usize || after[j] == before[j]));
        assert!(before[i as usize].is_none() && after[i as usize].is_some());
        run.turn(i % 2).unwrap();
    }
    let before = kept(&marks);
    for (turns, i) in [3, 0, 7, 1, 2, 6, 5, 4].into_iter().enumerate() {
        run.back(&marks, &mut work, i).unwrap();
        assert_eq!(run.turns(), turns as u64);
    }
    assert!(kept(&marks) == before);
    let restored = run.into_memory().to_bytes();
    assert!(before[4] == Some(restored));
}

/// 32, then 45, then 46, and nothing has changed; 46 on going back alone.
#[test]
fn order_of_refusals() {
    let (table, mut memory, mut marks, mut work) = (bytes(&e()), Memory::new(), Box::new(Marks::new()), MarksWork::new());
    let mut run = Run::begin(&table, &mut memory, work.work(), 2, 6).unwrap();
    run.list(&[0, 1, 0]).unwrap();
    run.mark(&mut marks, &mut work, 2).unwrap();
    for i in [8, 9, 255, 256, 258, 1 << 31, u32::MAX] {
        assert_eq!(run.mark(&mut marks, &mut work, i), Err(refused(45, 0)));
        assert_eq!(run.back(&marks, &mut work, i), Err(refused(45, 0)));
        assert_eq!(marks.put(i, &Memory::new()), Err(refused(45, 0)));
        assert!(marks.get(i).is_none());
    }
    assert_eq!(which_set(&marks), [2]);

    let damaged = with(&marks.get(2).unwrap(), HELD, &[7]);
    marks.put(5, &damaged).unwrap();
    let (before, shown) = (kept(&marks), totals(&run));
    for i in [0, 2, 5, 8, u32::MAX] {
        assert_eq!(run.mark(&mut marks, &mut work, i), Err(refused(32, 0)), "{i}");
    }
    for i in [2, 3, 5, 8, u32::MAX] {
        assert_eq!(run.back(&marks, &mut work, i), Err(refused(32, 0)), "{i}");
    }
    assert!(kept(&marks) == before && totals(&run) == shown);
    assert_eq!(run.list(&[1, 0]), Ok(Report::Spent { turns: 2 })); // the other calls do not look at marks

    marks.put(5, &Memory::new()).unwrap();
    assert_eq!(run.back(&marks, &mut work, 3), Err(refused(46, 0)));
    assert_eq!(run.mark(&mut marks, &mut work, 3), Ok(()));
    assert_eq!(run.back(&marks, &mut work, 3), Ok(()));
}

/// What an unset mark holds is not looked at.
#[test]
fn a_damaged_mark_that_is_not_set() {
    let (table, mut memory, mut marks, mut work) = (bytes(&e()), Memory::new(), Box::new(Marks::new()), MarksWork::new());
    let mut run = Run::begin(&table, &mut memory, work.work(), 2, 6).unwrap();
    let damaged = Memory::from_bytes(&[0xa5; Memory::BYTES]);
    for i in 0..8 {
        marks.put(i, &damaged).unwrap();
        assert_eq!(run.mark(&mut marks, &mut work, i), Err(refused(32, 0)));
    }
    marks.clear();
    for i in 0..8 {
        assert_eq!(run.back(&marks, &mut work, i), Err(refused(46, 0)));
        assert_eq!(run.mark(&mut marks, &mut work, i), Ok(()));
        run.turn(0).unwrap();
        assert_eq!(run.back(&marks, &mut work, i), Ok(()));
        assert_eq!(run.turns(), 0);
    }
}

/// 32 where it is the run that is not sound: 2^64 − 1 turns are taken. And where the marks are of another table's run.
#[test]
fn what_32_looks_at() {
    let (table, mut memory, mut marks, mut work) = (bytes(&e()), Memory::new(), Box::new(Marks::new()), MarksWork::new());
    Run::begin(&table, &mut memory, work.work(), 2, 6).unwrap();
    memory = with(&memory, TURNS, &(u64::MAX - 1).to_le_bytes());
    let mut run = Run::open(&table, &mut memory, work.work()).unwrap();
    run.mark(&mut marks, &mut work, 0).unwrap();
    run.turn(0).unwrap();
    for i in [0, 1, 8] {
        assert_eq!(run.mark(&mut marks, &mut work, i), Err(refused(32, 0)));
        assert_eq!(run.back(&marks, &mut work, i), Err(refused(32, 0)));
    }

    let other = bytes(&vec![vec![End]]);
    let mut run = Run::begin(&other, &mut memory, work.work(), 1, 1).unwrap();
    assert_eq!(run.mark(&mut marks, &mut work, 1), Err(refused(32, 0)));
    assert_eq!(run.back(&marks, &mut work, 0), Err(refused(32, 0)));
    marks.clear();
    assert_eq!(run.mark(&mut marks, &mut work, 1), Ok(()));
}

/// The blank run is marked and restored like any other.
#[test]
fn the_blank_run() {
    let (table, mut blank, mut marks, mut work) = (bytes(&e()), Memory::new(), Box::new(Marks::new()), MarksWork::new());
    let mut run = Run::open(&table, &mut blank, work.work()).unwrap();
    run.mark(&mut marks, &mut work, 0).unwrap();
    assert_eq!(run.back(&marks, &mut work, 0), Ok(()));
    let blank = run.into_memory().to_bytes();

    let mut memory = Memory::new();
    let mut run = Run::begin(&table, &mut memory, work.work(), 2, 6).unwrap();
    run.list(&[0, 1]).unwrap();
    run.mark(&mut marks, &mut work, 1).unwrap();
    run.back(&marks, &mut work, 0).unwrap();
    assert_eq!((run.workers(), run.threads().count(), run.turn(0)), (0, 0, Err(refused(30, 0))));
    run.mark(&mut marks, &mut work, 2).unwrap();
    assert!(kept(&marks)[2] == Some(blank));
    run.back(&marks, &mut work, 1).unwrap();
    assert_eq!((run.workers(), totals(&run)), (2, (6, 6, 2)));
}

/// A mark is brought back as a run is: its parents and second list are made anew.
#[test]
fn a_mark_put_away() {
    let (table, mut memory, mut marks, mut work) = (bytes(&e()), Memory::new(), Box::new(Marks::new()), MarksWork::new());
    let mut run = Run::begin(&table, &mut memory, work.work(), 2, 6).unwrap();
    run.list(&[0, 1, 0]).unwrap();
    run.mark(&mut marks, &mut work, 6).unwrap();
    let mark = marks.get(6).unwrap();
    run.rounds(u32::MAX).unwrap();
    marks.clear();
    let parents = 8288;
    marks.put(4, &with(&mark, parents, &[9; 2048])).unwrap();
    run.back(&marks, &mut work, 4).unwrap();
    assert!(run.into_memory().to_bytes() == mark.to_bytes());
}

#[test]
fn marks_in_a_static() {
    static MARKS: Mutex<Marks> = Mutex::new(Marks::new());
    static WORK: Mutex<MarksWork> = Mutex::new(MarksWork::new());
    let (table, mut memory) = (bytes(&e()), Memory::new());
    let (mut marks, mut work) = (MARKS.lock().unwrap(), WORK.lock().unwrap());
    let mut run = Run::begin(&table, &mut memory, work.work(), 2, 6).unwrap();
    run.mark(&mut marks, &mut work, 0).unwrap();
    run.rounds(u32::MAX).unwrap();
    run.back(&marks, &mut work, 0).unwrap();
    assert_eq!(run.turns(), 0);
}

/// Runs in rounds, marks set and gone back to, and the run put away in between: all is as with copies of the model's machine.
#[test]
fn random_marks() {
    let (mut draw, mut work, mut gone_back, mut replaced) = (Draw(11), MarksWork::new(), 0, 0);
    for _ in 0..60 {
        let (table, p, quota) = drawn(&mut draw);
        let (data, firsts, mut memory, mut marks) = (bytes(&table), firsts(&table), Memory::new(), Box::new(Marks::new()));
        Run::begin(&data, &mut memory, work.work(), p, quota).unwrap();
        let mut machine = Machine::begin(&table, p as usize, quota);
        let mut copies: Vec<Option<Machine>> = vec![None; 8];
        for _ in 0..16 {
            let mut run = Run::open(&data, &mut memory, work.work()).unwrap();
            let limit = draw.below(40) as u32;
            assert_eq!(run.rounds(limit), Ok(take(&mut machine, (0..p as usize).cycle().take(limit as usize))));
            let i = draw.below(8) as usize;
            if draw.chance(50) {
                run.mark(&mut marks, &mut work, i as u32).unwrap();
                replaced += u32::from(copies[i].is_some());
                copies[i] = Some(machine.clone());
            } else {
                let answer = run.back(&marks, &mut work, i as u32);
                assert_eq!(answer, if copies[i].is_some() { Ok(()) } else { Err(refused(46, 0)) });
                if let Some(copy) = &copies[i] {
                    machine = copy.clone();
                    gone_back += 1;
                }
            }
            same(&run, &machine, &firsts);
        }
    }
    assert!(gone_back > 100 && replaced > 50, "{gone_back} {replaced}");
}

/// The texts are the header's.
#[test]
fn texts_are_of_the_header() {
    let header = include_str!("../../../../include/wivakkol_marks.h");
    for (name, number) in [("MARK", 45), ("UNSET", 46)] {
        let line = header.lines().find(|line| line.starts_with(&format!("#define WIVAKKOL_REFUSED_{name} {number}"))).unwrap();
        assert!(line.contains(&format!("/* {} */", refused(number, 0).meaning())), "{line}");
    }
    assert_eq!(refused(46, 0).to_string(), "refused 46: the mark is not set");
}
