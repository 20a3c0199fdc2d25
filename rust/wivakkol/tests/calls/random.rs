//! Random tables; single turns, runs over lists and runs in rounds, mixed, compared with the model after every call.
use crate::model::Action::{Alloc, Join};
use crate::model::{self, bytes, facts, filled, Draw, Machine, Said, Table};
use wivakkol::{check, most_turns, Memory, Refusal, Reply, Report, Run, Status, TablesWork, Work, TABLE_MOST};

/// The first action of each thread.
pub fn firsts(table: &Table) -> Vec<usize> {
    table.iter().scan(0, |sum, body| Some(std::mem::replace(sum, *sum + body.len()))).collect()
}

pub fn reply(said: Said, firsts: &[usize]) -> Reply {
    match said {
        Said::Idle => Reply::Idle,
        Said::Done { thread, at } => Reply::Done { thread, action: (firsts[usize::from(thread)] + at) as u16 },
        Said::Quota { thread, wanted } => Reply::Quota { thread, wanted },
        Said::Wait { thread, child } => Reply::Wait { thread, child },
    }
}

pub fn status(status: model::Status) -> Status {
    match status {
        model::Status::Unborn => Status::Unborn,
        model::Status::Ready => Status::Ready,
        model::Status::Held => Status::Held,
        model::Status::Waiting => Status::Waiting,
        model::Status::Ended => Status::Ended,
    }
}

/// All that the run shows is the model's.
pub fn same(run: &Run, machine: &Machine, firsts: &[usize]) {
    assert_eq!((run.held(), run.highest(), run.turns(), run.ended()), (machine.held, machine.highest, machine.turns, machine.ended()));
    assert_eq!(run.threads().collect::<Vec<_>>(), machine.list);
    for (w, worker) in machine.workers.iter().enumerate() {
        assert_eq!(run.worker(w as u32), worker.map(|worker| (worker.thread, worker.quota)));
    }
    for (t, first) in firsts.iter().enumerate() {
        assert_eq!(run.status(t as u16), Some(status(machine.status[t])));
        assert_eq!(run.amount(t as u16), Some(machine.amounts[t]));
        assert_eq!(run.next_action(t as u16), Some((first + machine.next[t]) as u16));
    }
}

/// The model's turns for a row of workers, up to the root's end; how many.
pub fn take(machine: &mut Machine, workers: impl Iterator<Item = usize>) -> Report {
    let before = machine.turns;
    for w in workers {
        if machine.ended() {
            break;
        }
        machine.turn(w);
    }
    let turns = machine.turns - before;
    if machine.ended() {
        Report::Finished { turns }
    } else {
        Report::Spent { turns }
    }
}

/// A table, p from 1 to 16 and a quota that the table's allocs keep.
pub fn drawn(draw: &mut Draw) -> (Table, u32, u32) {
    let most = [3, 20, 200, 1024][draw.below(4) as usize];
    let table = draw.table(most);
    (table, 1 + draw.below(16) as u32, 64 + draw.below(100) as u32)
}

#[test]
fn turn_by_turn() {
    let mut draw = Draw(20);
    for _ in 0..60 {
        let (table, p, quota) = drawn(&mut draw);
        let (data, firsts, mut memory) = (bytes(&table), firsts(&table), Memory::new());
        let mut run = Run::begin(&data, &mut memory, &mut Work::new(), p, quota).unwrap();
        let mut machine = Machine::begin(&table, p as usize, quota);
        for _ in 0..200 {
            if machine.ended() {
                break;
            }
            let w = draw.below(u64::from(p)) as u32;
            let shown = run.preview(w).unwrap();
            let turn = run.turn(w).unwrap();
            let (said, passed) = machine.turn(w as usize);
            assert_eq!((turn.reply, usize::from(turn.passed)), (reply(said, &firsts), passed));
            same(&run, &machine, &firsts);
            let quota = machine.workers[w as usize].map_or(0, |worker| worker.quota);
            assert_eq!((shown.turn, shown.held, shown.highest, shown.quota), (turn, machine.held, machine.highest, quota));
        }
    }
}

/// "turns taken right-aligned in 6, sixteen cells of 4, memory held right-aligned in 14"
fn line(machine: &Machine) -> String {
    let cell = |w: usize| match machine.workers.get(w) {
        Some(Some(worker)) => format!("{:>4}", worker.thread),
        Some(None) => "   .".to_string(),
        None => "    ".to_string(),
    };
    format!("{:>6}{}{:>14}\n", machine.turns, (0..16).map(cell).collect::<String>(), machine.held)
}

/// A run put away and brought back between turns.
#[test]
fn in_parts() {
    let (mut draw, mut work) = (Draw(23), Work::new());
    for _ in 0..100 {
        let (table, p, quota) = drawn(&mut draw);
        let (data, firsts, mut memory) = (bytes(&table), firsts(&table), Memory::new());
        Run::begin(&data, &mut memory, &mut work, p, quota).unwrap();
        let mut machine = Machine::begin(&table, p as usize, quota);
        for _ in 0..8 {
            let kept = memory.to_bytes();
            memory = Memory::from_bytes(&kept);
            let mut run = Run::open(&data, &mut memory, &mut work).unwrap();
            same(&run, &machine, &firsts);
            assert_eq!(run.wall_line(&mut work).unwrap()[..], *line(&machine).as_bytes());
            let limit = draw.below(60) as u32;
            assert_eq!(run.rounds(limit), Ok(take(&mut machine, (0..p as usize).cycle().take(limit as usize))));
            same(&run, &machine, &firsts);
        }
    }
}

#[test]
fn all_calls_mixed() {
    let (mut draw, mut finished) = (Draw(21), 0);
    for _ in 0..300 {
        let (table, p, quota) = drawn(&mut draw);
        let (data, firsts, mut memory) = (bytes(&table), firsts(&table), Memory::new());
        let mut run = Run::begin(&data, &mut memory, &mut Work::new(), p, quota).unwrap();
        let mut machine = Machine::begin(&table, p as usize, quota);
        for _ in 0..4 {
            let limit = draw.below(300) as u32;
            assert_eq!(run.rounds(limit), Ok(take(&mut machine, (0..p as usize).cycle().take(limit as usize))));
            same(&run, &machine, &firsts);
            if !machine.ended() {
                assert_eq!(run.turn(0).unwrap().reply, reply(machine.turn(0).0, &firsts));
            }
            let order: Vec<u8> = (0..draw.below(50)).map(|_| draw.below(u64::from(p)) as u8).collect();
            assert_eq!(run.list(&order), Ok(take(&mut machine, order.iter().map(|w| usize::from(*w)))));
            same(&run, &machine, &firsts);
        }
        assert_eq!(run.rounds(u32::MAX), Ok(take(&mut machine, (0..p as usize).cycle())));
        same(&run, &machine, &firsts);
        finished += u32::from(run.ended());
    }
    assert_eq!(finished, 300);
}

/// Quotas below the allocs: the filled-out table runs, in a buffer of just its size, and no smaller one; both bounds are kept with its facts, and the limit of turns is of its counts.
#[test]
fn filled_out() {
    let (mut draw, mut tables_work, mut filled_out, mut too_large) = (Draw(24), TablesWork::new(), 0, 0);
    for _ in 0..200 {
        let (table, p, _) = drawn(&mut draw);
        let quota = 1 + draw.below(70) as u32;
        let (data, out, mut memory, mut room) = (bytes(&table), filled(&table, quota), Memory::new(), [0; TABLE_MOST]);
        let (wanted, size) = (bytes(&out), if out == table { 0 } else { bytes(&out).len() });
        if out.len() > 1024 || out.concat().len() > 8192 {
            let refusal = Run::begin_filling(&data, &mut room, &mut memory, &mut Work::new(), p, quota).err();
            assert_eq!((refusal.map(|x| x.number), room), (Some(44), [0; TABLE_MOST]));
            assert_eq!(most_turns(&mut tables_work, &data, p, quota).err(), refusal);
            too_large += 1;
            continue;
        }
        if size > 0 {
            let refusal = Run::begin_filling(&data, &mut room[..size - 1], &mut memory, &mut Work::new(), p, quota).err();
            assert_eq!((refusal, room), (Some(Refusal { number: 61, place: 0 }), [0; TABLE_MOST]));
            filled_out += 1;
        }
        let mut run = Run::begin_filling(&data, &mut room[..size], &mut memory, &mut Work::new(), p, quota).unwrap();
        assert_eq!(run.table(), wanted);
        let again = out.concat().iter().filter(|x| matches!(x, Alloc(_) | Join(_))).count();
        assert_eq!(most_turns(&mut tables_work, &data, p, quota), Ok(p * (out.concat().len() + again) as u32));
        let (mut machine, firsts, (peak, depth, nested)) = (Machine::begin(&out, p as usize, quota), firsts(&out), facts(&out));
        assert_eq!(peak, facts(&table).0);
        let premature = u64::from(p - 1) * u64::from(depth - 1);
        for i in 0..300 {
            if machine.ended() {
                break;
            }
            assert_eq!(run.turn(i % p).unwrap().reply, reply(machine.turn((i % p) as usize).0, &firsts));
            same(&run, &machine, &firsts);
            assert!(run.highest() <= peak + u64::from(quota) * premature);
            assert!(run.threads().count() as u64 <= u64::from(nested) + premature);
        }
    }
    assert!(filled_out > 50 && too_large > 5, "{filled_out} {too_large}");
}

/// The facts are the model's, and a run in rounds keeps both bounds with b 1.
#[test]
fn facts_and_bounds() {
    let (mut draw, mut tables_work) = (Draw(22), TablesWork::new());
    for _ in 0..300 {
        let (table, p, quota) = drawn(&mut draw);
        let (data, mut memory) = (bytes(&table), Memory::new());
        let got = check(&mut tables_work, &data).unwrap();
        let (peak, depth, nested) = facts(&table);
        assert_eq!((got.peak, got.depth, got.nested), (peak, depth, nested));
        let mut run = Run::begin(&data, &mut memory, &mut Work::new(), p, quota).unwrap();
        let premature = u64::from(p - 1) * u64::from(depth - 1);
        while !run.ended() {
            run.turn((run.turns() % u64::from(p)) as u32).unwrap();
            assert!(run.highest() <= peak + u64::from(quota) * premature);
            assert!(run.threads().count() as u64 <= u64::from(nested) + premature);
        }
    }
}
