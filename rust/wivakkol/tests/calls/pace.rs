//! A pace: a case by hand, every refusal in its order, random paced calls against the rule itself, counted by brute force, and the machine of the model; turns that were only counted.
use crate::cases::{e, refused};
use crate::model::{bytes, facts, Draw, Machine};
use crate::random::{drawn, firsts, reply, same};
use wivakkol::{Memory, Pace, Paced, Reply, Report, Run, Stopped, Work};

/// The least b that a row of turns keeps: of all stretches after a turn without a turn of its worker, the most turns of one worker.
fn least(row: &[u32]) -> u32 {
    let mut most = 0;
    for (i, x) in row.iter().enumerate() {
        let mut counts = [0; 16];
        for w in row[i + 1..].iter().take_while(|w| *w != x) {
            counts[*w as usize] += 1;
            most = most.max(counts[*w as usize]);
        }
    }
    most
}

/// The row with a turn of w.
fn with(row: &[u32], w: u32) -> Vec<u32> {
    [row, &[w]].concat()
}

/// The rule by hand: a worker counts from its first turn on, also after its latest.
#[test]
fn least_by_hand() {
    assert_eq!([least(&[]), least(&[0, 0, 0]), least(&[0, 0, 0, 1]), least(&[0, 1, 1]), least(&[0, 1, 2, 1, 1, 0])], [0, 0, 1, 2, 3]);
}

/// E, p 2, K 6, b 1: worker 1 is waited for only once it has had a turn.
#[test]
fn worked_case() {
    let (table, mut memory, mut work) = (bytes(&e()), Memory::new(), Work::new());
    let mut pace = Pace::begin(2, 1).unwrap();
    assert_eq!((pace.workers(), pace.b(), pace.kept(), pace.may(0), pace.may(1), pace.may(2)), (2, 1, 0, Ok(()), Ok(()), Err(refused(30, 0))));
    let mut run = Run::begin(&table, &mut memory, &mut work, 2, 6).unwrap().paced(&mut pace);
    assert_eq!(run.turn(0).unwrap().reply, Reply::Done { thread: 0, action: 0 });
    assert_eq!((run.turn(0).is_ok(), run.pace().kept()), (true, 0)); // nobody else has had a turn
    assert_eq!((run.turn(1).is_ok(), run.pace().kept()), (true, 1));
    assert_eq!((run.pace().may(1), run.turn(1)), (Err(refused(60, 0)), Err(refused(60, 0))));
    assert_eq!((run.run().turns(), run.pace().kept()), (3, 1));
    assert_eq!(run.list(&[0, 1, 1, 0]), Err(Stopped { refusal: refused(60, 0), turns: 2 }));
    assert_eq!(run.run().turns(), 5);
    assert_eq!(run.list(&[0, 2]), Err(Stopped { refusal: refused(30, 0), turns: 1 }));
    assert_eq!(run.rounds(1), Ok(Report::Spent { turns: 1 })); // worker 1, after 0
    assert_eq!((run.pace().may(0), run.pace().may(1)), (Ok(()), Err(refused(60, 0))));
    let Ok(Report::Finished { turns }) = run.rounds(u32::MAX) else { panic!("the run finishes") };
    assert_eq!((run.run().turns(), run.run().ended(), run.pace().kept()), (7 + turns, true, 1));
    assert_eq!(run.run().highest(), 12);
    let printed = format!("{run:?}");
    assert!(
        printed.starts_with("Paced { run: Run { workers: 2, quota: 6, ") && printed.ends_with("pace: Pace { workers: 2, b: 1, kept: 1, .. } }"),
        "{printed}"
    );
}

/// 20 before 41; 30 and 31 of the run before 60, and nothing has changed.
#[test]
fn order_of_refusals() {
    for (p, b, number) in [(0, 0, 20), (17, 1, 20), (17, 65536, 20), (1, 0, 41), (16, 65536, 41), (u32::MAX, u32::MAX, 20)] {
        assert_eq!(Pace::begin(p, b), Err(refused(number, 0)), "{p} {b}");
    }
    let (table, mut memory, mut pace) = (bytes(&e()), Memory::new(), Pace::begin(16, 65535).unwrap());
    assert_eq!(Pace::begin(2, 1).map(|x| (x.workers(), x.b())), Ok((2, 1)));
    let mut run = Run::begin(&table, &mut memory, &mut Work::new(), 2, 6).unwrap();
    while !run.ended() {
        let w = (run.turns() % 2) as u32;
        run.turn(w).unwrap();
        pace.took(w).unwrap();
    }
    let mut narrow = Pace::begin(2, 1).unwrap();
    for w in [0, 1, 1] {
        narrow.took(w).unwrap(); // past its b: counted all the same
    }
    assert_eq!((narrow.kept(), narrow.may(1), narrow.took(2)), (2, Err(refused(60, 0)), Err(refused(30, 0))));
    let before = narrow.clone();
    let mut run = run.paced(&mut narrow);
    assert_eq!((run.turn(1), run.turn(2)), (Err(refused(31, 0)), Err(refused(30, 0))));
    assert_eq!((run.list(&[1, 2]), run.rounds(5)), (Ok(Report::Finished { turns: 0 }), Ok(Report::Finished { turns: 0 })));
    assert_eq!(narrow, before);
}

/// A pace for fewer workers than the run's, and one that was never begun: a turn says what `may` says.
#[test]
fn another_pace() {
    let (table, mut memory, mut few) = (bytes(&e()), Memory::new(), Pace::begin(1, 1).unwrap());
    let mut run = Run::begin(&table, &mut memory, &mut Work::new(), 4, 6).unwrap().paced(&mut few);
    assert_eq!((run.pace().may(2), run.turn(2)), (Err(refused(30, 0)), Err(refused(30, 0))));
    assert_eq!(run.turn(0).map(|x| x.reply), Ok(Reply::Done { thread: 0, action: 0 }));
    assert_eq!(run.list(&[0, 3]).map_err(|x| (x.turns, x.refusal)), Err((1, refused(30, 0))));
    assert_eq!(run.rounds(2), Ok(Report::Spent { turns: 2 }));
    let (run, mut none) = (run.into_run(), Pace::from_bytes(&[0; Pace::BYTES]));
    let mut run = run.paced(&mut none);
    assert_eq!((run.pace().may(0), run.turn(0), run.rounds(0)), (Err(refused(30, 0)), Err(refused(30, 0)), Ok(Report::Spent { turns: 0 })));
}

/// A run with its pace, the row of its turns, and the model.
struct Both<'t, 'p, 'm> {
    run: Paced<'t, 'p>,
    row: Vec<u32>,
    machine: Machine<'m>,
    firsts: Vec<usize>,
}

impl Both<'_, '_, '_> {
    fn refused(&self, w: u32) -> bool {
        least(&with(&self.row, w)) > self.run.pace().b()
    }

    fn turn(&mut self, w: u32) {
        if self.machine.ended() {
            return assert_eq!(self.run.turn(w), Err(refused(31, 0)));
        }
        if self.refused(w) {
            return assert_eq!(self.run.turn(w), Err(refused(60, 0)));
        }
        let turn = self.run.turn(w).unwrap();
        let (said, passed) = self.machine.turn(w as usize);
        assert_eq!((turn.reply, usize::from(turn.passed)), (reply(said, &self.firsts), passed));
        self.row.push(w);
    }

    /// The turns of a row of workers, up to the root's end or the first that would break the rule.
    fn take(&mut self, workers: impl Iterator<Item = u32>) -> Result<Report, Stopped> {
        let mut turns = 0;
        for w in workers {
            if self.machine.ended() {
                break;
            }
            if self.refused(w) {
                return Err(Stopped { refusal: refused(60, 0), turns });
            }
            self.machine.turn(w as usize);
            self.row.push(w);
            turns += 1;
        }
        Ok(if self.machine.ended() { Report::Finished { turns } } else { Report::Spent { turns } })
    }

    /// What the pace says of each worker is the rule's, and somebody may go on.
    fn same(&self) {
        let (pace, p) = (self.run.pace(), self.run.run().workers());
        assert_eq!(pace.kept(), least(&self.row));
        let may: Vec<bool> = (0..p).map(|w| pace.may(w).is_ok()).collect();
        assert_eq!(may, (0..p).map(|w| !self.refused(w)).collect::<Vec<_>>());
        assert!(may.contains(&true));
        same(self.run.run(), &self.machine, &self.firsts);
    }
}

/// Turns, lists and rounds, mixed; both limits with the pace's b.
#[test]
fn against_the_rule() {
    let (mut draw, mut stopped, mut finished) = (Draw(41), 0, 0);
    for _ in 0..80 {
        let (table, p, quota) = drawn(&mut draw);
        let b = 1 + draw.below(4) as u32;
        let (data, mut memory, mut pace, (peak, depth, nested)) = (bytes(&table), Memory::new(), Pace::begin(p, b).unwrap(), facts(&table));
        let run = Run::begin(&data, &mut memory, &mut Work::new(), p, quota).unwrap().paced(&mut pace);
        let mut both = Both { run, row: Vec::new(), machine: Machine::begin(&table, p as usize, quota), firsts: firsts(&table) };
        let ahead = u64::from(b) * u64::from(p - 1) * u64::from(depth - 1);
        for _ in 0..30 {
            match draw.below(4) {
                0 => {
                    let limit = draw.below(20) as u32;
                    let after = both.row.last().map_or(0, |w| w + 1);
                    let said = both.run.rounds(limit);
                    assert_eq!(said, both.take((0..p).cycle().skip(after as usize).take(limit as usize)));
                }
                1 => {
                    let order: Vec<u8> = (0..draw.below(8)).map(|_| draw.below(u64::from(p)) as u8).collect();
                    let said = both.run.list(&order);
                    assert_eq!(said, both.take(order.iter().map(|w| u32::from(*w))));
                    stopped += u32::from(said.is_err());
                }
                _ => both.turn(draw.below(u64::from(p)) as u32),
            }
            both.same();
            assert!(both.run.run().highest() <= peak + ahead * u64::from(quota));
            assert!(both.run.run().threads().count() as u64 <= u64::from(nested) + ahead);
        }
        finished += u32::from(both.machine.ended());
    }
    assert!(stopped > 50 && finished > 10, "{stopped} {finished}");
}

/// Turns that nobody refuses, only counted: the b that they kept.
#[test]
fn counted() {
    let mut draw = Draw(42);
    for _ in 0..100 {
        let p = 1 + draw.below(16) as u32;
        let (mut pace, mut row) = (Pace::begin(p, 1).unwrap(), Vec::new());
        for _ in 0..60 {
            let w = draw.below(u64::from(p)).min(draw.below(u64::from(p))) as u32;
            row.push(w);
            assert_eq!((pace.took(w), pace.kept()), (Ok(()), least(&row)));
            assert_eq!(pace.took(p), Err(refused(30, 0)));
        }
    }
}

/// A run put away with its pace after each call of rounds: together they keep b 1; with rounds that start with worker 0 they would not.
#[test]
fn in_parts() {
    let (table, mut memory, mut work) = (bytes(&e()), Memory::new(), Work::new());
    let mut pace = Pace::begin(3, 1).unwrap();
    Run::begin(&table, &mut memory, &mut work, 3, 6).unwrap();
    let mut turns = 0;
    loop {
        memory = Memory::from_bytes(&memory.to_bytes());
        let brought = Pace::from_bytes(&pace.to_bytes());
        assert_eq!(brought, pace);
        pace = brought;
        let mut run = Run::open(&table, &mut memory, &mut work).unwrap().paced(&mut pace);
        let said = run.rounds(4).unwrap();
        let run = run.into_run();
        if let Report::Finished { turns: last } = said {
            assert_eq!(run.turns(), turns + last);
            break;
        }
        turns += 4;
    }
    assert_eq!(pace.kept(), 1);
    assert_eq!(least(&[0, 1, 2, 0, 0, 1, 2, 0]), 2);
}

/// Bytes that no call left: the calls answer all the same.
#[test]
fn any_bytes() {
    let pace = Pace::from_bytes(&[255; Pace::BYTES]);
    assert_eq!((pace.workers(), pace.b(), pace.kept(), pace.may(15)), (u32::MAX, u32::MAX, u32::MAX, Ok(())));
    let mut blank = Pace::from_bytes(&[0; Pace::BYTES]);
    assert_eq!((blank.may(0), blank.took(0)), (Err(refused(30, 0)), Err(refused(30, 0))));
    assert_eq!(blank.to_bytes(), [0; Pace::BYTES]);
}
