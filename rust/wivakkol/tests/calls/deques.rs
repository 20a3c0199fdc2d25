//! DFDeques: the two worked listings, every refusal in its order, a run put away, what opening tests; random runs, compared with a machine that keeps deques as rows.
use crate::cases::{e, refused};
use crate::model::Action::{self, *};
use crate::model::{bytes, filled, Draw, Said, Status, Table, Worker};
use crate::random::{drawn, firsts, reply, status};
use wivakkol::{deque_limit, DequeLimits, DequeRun, LimitWork, Memory, Reply, Report, Run, Stopped, Work, TABLE_MOST};

/// N13's machine, written on its own. "Deques are in a left-to-right list": each with its owner and its threads, the top first.
struct Machine<'a> {
    table: &'a Table,
    quota: u32,
    next: Vec<usize>,
    status: Vec<Status>,
    deques: Vec<(Option<usize>, Vec<u16>)>,
    workers: Vec<Option<Worker>>,
    amounts: Vec<u64>,
    held: u64,
    highest: u64,
    turns: u64,
}

impl<'a> Machine<'a> {
    /// "At the start the root lies in one deque that nobody owns."
    fn begin(table: &'a Table, p: usize, quota: u32) -> Machine<'a> {
        let n = table.len();
        let mut status = vec![Status::Unborn; n];
        status[0] = Status::Ready;
        let deques = vec![(None, vec![0])];
        Machine { table, quota, next: vec![0; n], status, deques, workers: vec![None; p], amounts: vec![0; n], held: 0, highest: 0, turns: 0 }
    }

    fn ended(&self) -> bool {
        self.status[0] == Status::Ended
    }

    fn own(&mut self, w: usize) -> &mut (Option<usize>, Vec<u16>) {
        self.deques.iter_mut().find(|deque| deque.0 == Some(w)).expect("a worker owns a deque while it holds a thread")
    }

    fn hold(&mut self, w: usize, thread: u16, quota: u32) {
        self.status[usize::from(thread)] = Status::Held;
        self.workers[w] = Some(Worker { thread, quota });
    }

    fn turn(&mut self, w: usize, choice: usize) -> Said {
        self.turns += 1;
        if self.workers[w].is_none() {
            // "the deque at that place from the left, stolen from its bottom; if there is none or it is empty, the turn is idle"
            let Some(stolen) = self.deques.get_mut(choice).and_then(|deque| deque.1.pop()) else {
                return Said::Idle;
            };
            self.hold(w, stolen, self.quota);
            self.deques.insert(choice + 1, (Some(w), vec![]));
        }
        let said = self.act(w);
        self.deques.retain(|(owner, threads)| owner.is_some() || !threads.is_empty());
        said
    }

    fn act(&mut self, w: usize) -> Said {
        let Worker { thread, quota } = self.workers[w].expect("it holds a thread");
        let t = usize::from(thread);
        let at = self.next[t];
        let action = self.table[t][at];
        let share = |x: u32| if x > self.quota { 0 } else { x };
        match action {
            Alloc(x) if share(x) > quota => {
                // "isn't done, the thread goes back on top and the deque is given up"
                self.status[t] = Status::Ready;
                self.workers[w] = None;
                let own = self.own(w);
                *own = (None, [vec![thread], own.1.clone()].concat());
                return Said::Quota { thread, wanted: x };
            }
            Join(child) if self.status[usize::from(child)] != Status::Ended => {
                self.status[t] = Status::Waiting;
                self.go_on(w, quota);
                return Said::Wait { thread, child };
            }
            Alloc(x) => {
                self.workers[w] = Some(Worker { thread, quota: quota - share(x) });
                self.amounts[t] += u64::from(x);
                self.held += u64::from(x);
                self.highest = self.highest.max(self.held);
            }
            Free(x) => {
                self.amounts[t] -= u64::from(x);
                self.held -= u64::from(x);
            }
            Join(c) => {
                self.amounts[t] += self.amounts[usize::from(c)];
                self.amounts[usize::from(c)] = 0;
            }
            Fork(c) => {
                // "the parent goes on top and the worker does the child"
                self.status[t] = Status::Ready;
                self.own(w).1.insert(0, thread);
                self.hold(w, c, quota);
            }
            End => {
                self.status[t] = Status::Ended;
                let waits = |u: &usize| self.status[*u] == Status::Waiting && self.table[*u][self.next[*u]] == Join(thread);
                match (0..self.table.len()).find(waits) {
                    Some(parent) => self.hold(w, parent as u16, quota),
                    None => self.go_on(w, quota),
                }
            }
            Work => {}
        }
        if action != End {
            self.next[t] += 1;
        }
        Said::Done { thread, at }
    }

    /// "with its deque's top thread; with none there, its deque leaves the list"
    fn go_on(&mut self, w: usize, quota: u32) {
        let own = self.own(w);
        if own.1.is_empty() {
            own.0 = None;
            self.workers[w] = None;
        } else {
            let top = own.1.remove(0);
            self.hold(w, top, quota);
        }
    }
}

/// All that the run shows is the model's.
fn same(run: &DequeRun, machine: &Machine, firsts: &[usize]) {
    assert_eq!((run.held(), run.highest(), run.turns(), run.ended()), (machine.held, machine.highest, machine.turns, machine.ended()));
    let deques: Vec<_> = run.deques().map(|deque| (deque.owner().map(|w| w as usize), deque.threads().collect::<Vec<_>>())).collect();
    assert_eq!(deques, machine.deques);
    for (w, worker) in machine.workers.iter().enumerate() {
        assert_eq!(run.worker(w as u32), worker.map(|worker| (worker.thread, worker.quota)));
    }
    for (t, first) in firsts.iter().enumerate() {
        assert_eq!(run.status(t as u16), Some(status(machine.status[t])));
        assert_eq!(run.amount(t as u16), Some(machine.amounts[t]));
        assert_eq!(run.next_action(t as u16), Some((first + machine.next[t]) as u16));
    }
}

const LISTING: &str = "\
1 0 0 0 fork 0
2 1 - - idle 0
3 0 1 5 alloc 6
4 0 1 6 work 6
5 0 1 7 free 0
6 0 1 8 end 0
7 1 - - idle 0
8 0 0 1 fork 0
9 0 2 9 quota 0
10 1 0 2 wait 0
11 1 2 9 alloc 6
12 0 - - idle 6
13 1 2 10 free 0
14 1 2 11 end 0
15 1 0 2 join 0
16 1 0 3 join 0
17 1 0 4 end 0
done 17 peak 6
";

/// Robbing a deque that has an owner.
const ROBBED: &str = "\
1 0 0 0 fork 0
2 1 0 1 fork 0
3 0 1 5 alloc 6
4 1 2 9 alloc 12
5 0 1 6 work 12
6 1 2 10 free 6
7 0 1 7 free 0
8 1 2 11 end 0
9 0 1 8 end 0
10 1 0 2 join 0
11 1 0 3 join 0
12 1 0 4 end 0
done 12 peak 12
";

fn pairs(text: &str) -> Vec<u8> {
    text.bytes().filter(|x| *x != b' ').map(|x| x - b'0').collect()
}

/// A turn for each pair, as the lines of `dequelist`; the action of a turn that was not done is the thread's next.
fn listing(run: &mut DequeRun, actions: &[Action], order: &[u8]) -> String {
    let mut lines = String::new();
    for (i, pair) in order.chunks_exact(2).enumerate() {
        let (thread, what) = match run.turn(pair[0].into(), pair[1].into()).unwrap() {
            Reply::Idle => (None, "idle"),
            Reply::Done { thread, action } => (Some((thread, action)), actions[usize::from(action)].name()),
            Reply::Quota { thread, .. } => (Some((thread, run.next_action(thread).unwrap())), "quota"),
            Reply::Wait { thread, .. } => (Some((thread, run.next_action(thread).unwrap())), "wait"),
        };
        let thread = thread.map_or("- -".to_string(), |(t, a)| format!("{t} {a}"));
        lines += &format!("{} {} {thread} {what} {}\n", i + 1, pair[0], run.held());
    }
    let end = if run.ended() { "done" } else { "open" };
    lines + &format!("{end} {} peak {}\n", run.turns(), run.highest())
}

const STOPPED: &str = "00 11 00 00 00 00 10 00 00 10 10 00 10 10 10 10 10";
const WHOLE: &str = "00 10 00 10 00 10 00 10 00 10 10 10";

#[test]
fn listings_of_e() {
    let (table, mut memory) = (bytes(&e()), Memory::new());
    let actions: Vec<Action> = e().concat();
    for (order, wanted, turns, peak) in [(STOPPED, LISTING, 17, 6), (WHOLE, ROBBED, 12, 12)] {
        let mut run = DequeRun::begin(&table, &mut memory, &mut Work::new(), 2, 6).unwrap();
        assert_eq!(listing(&mut run, &actions, &pairs(order)), wanted);
        assert_eq!((run.turn(0, 2), run.turn(2, 0)), (Err(refused(31, 0)), Err(refused(30, 0))));
        assert_eq!((run.list(&[9, 9]), run.deques().count()), (Ok(Report::Finished { turns: 0 }), 0));
        let mut run = DequeRun::begin(&table, &mut memory, &mut Work::new(), 2, 6).unwrap();
        assert_eq!(run.list(&pairs(order)), Ok(Report::Finished { turns }));
        assert_eq!(run.highest(), peak);
    }
}

/// 30, then 31, then 49, also where the worker holds a thread; nothing has changed. In a list those before it are taken, and an odd last byte is not looked at.
#[test]
fn order_of_refusals() {
    let (table, mut memory) = (bytes(&e()), Memory::new());
    let mut run = DequeRun::begin(&table, &mut memory, &mut Work::new(), 2, 6).unwrap();
    for choice in [2, 16, 255, 256, 1 << 31, u32::MAX] {
        assert_eq!(run.turn(0, choice), Err(refused(49, 0)));
        assert_eq!(run.turn(choice, choice), Err(refused(30, 0)));
    }
    assert_eq!(run.turns(), 0);
    run.turn(0, 0).unwrap();
    assert_eq!((run.worker(0), run.turn(0, 2)), (Some((1, 6)), Err(refused(49, 0))));
    assert_eq!(run.list(&[]), Ok(Report::Spent { turns: 0 }));
    assert_eq!(run.list(&[9]), Ok(Report::Spent { turns: 0 }));
    assert_eq!(run.list(&[0, 0, 9]), Ok(Report::Spent { turns: 1 }));
    assert_eq!(run.list(&[0, 1, 0, 2, 0, 0]), Err(Stopped { refusal: refused(49, 0), turns: 1 }));
    assert_eq!(run.list(&[0, 1, 2, 2]), Err(Stopped { refusal: refused(30, 0), turns: 1 }));
    assert_eq!(run.turns(), 4);
}

/// The beginning is the same memory for both kinds, refused ones too.
#[test]
fn beginnings() {
    let (table, mut one, mut other) = (bytes(&e()), Memory::new(), Memory::new());
    for (p, quota) in [(2, 6), (16, 100), (0, 6), (17, 6), (2, 0), (2, 5)] {
        let begun = Run::begin(&table, &mut one, &mut Work::new(), p, quota).map(|_| ());
        assert_eq!(DequeRun::begin(&table, &mut other, &mut Work::new(), p, quota).map(|_| ()), begun);
        assert_eq!(one.to_bytes(), other.to_bytes());
    }
    let mut run = DequeRun::open(&table, &mut other, &mut Work::new()).unwrap(); // the blank record
    assert_eq!((run.workers(), run.deques().count(), run.turn(0, 0)), (0, 0, Err(refused(30, 0))));
    assert_eq!((run.list(&[0]), run.list(&[0, 0])), (Ok(Report::Spent { turns: 0 }), Err(Stopped { refusal: refused(30, 0), turns: 0 })));
}

/// Where numbers stand in the bytes of a run.
const TURNS: usize = 8208;
const PARENTS: usize = 8288;
const LEFT: usize = PARENTS + 2 * 2048;
const UNDER: usize = PARENTS + 2 * 4096;
const FIRST: usize = PARENTS + 2 * 6161;

/// What opening tests: both lists of links, and not the parents, which it writes.
#[test]
fn what_opening_tests() {
    let (table, mut memory, mut work) = (bytes(&e()), Memory::new(), Work::new());
    let mut run = DequeRun::begin(&table, &mut memory, &mut work, 2, 6).unwrap();
    assert_eq!(run.list(&pairs("00 10")), Ok(Report::Spent { turns: 2 })); // thread 1 held alone; thread 2 held over 0
    let kept = memory.to_bytes();
    let with = |at: usize, number: &[u8]| {
        let mut changed = kept;
        changed[at..at + number.len()].copy_from_slice(number);
        let mut memory = Memory::from_bytes(&changed);
        let answer = DequeRun::open(&table, &mut memory, &mut Work::new()).map(|_| ());
        assert!(answer.is_ok() || memory.to_bytes() == changed);
        answer.map(|()| memory.to_bytes())
    };
    assert_eq!(with(PARENTS, &[9; 2048]), Ok(kept));
    assert_eq!(with(TURNS, &[0xff; 8]), Err(refused(32, 0)));
    for at in [LEFT, LEFT + 2 * 1023, UNDER, UNDER + 2 * 2, FIRST] {
        assert_eq!(with(at, &[7, 0]), Err(refused(32, 0)), "{at}");
    }
    let mut run = DequeRun::open(&table, &mut memory, &mut work).unwrap();
    assert_eq!(run.list(&pairs("00 10 00 10 00 10 00 10 10 10")), Ok(Report::Finished { turns: 10 }));
}

/// A run in a box is put away and taken up in it.
#[test]
fn memory_in_a_box() {
    let (table, mut memory, mut work) = (bytes(&e()), Box::new(Memory::new()), Work::new());
    DequeRun::begin(&table, &mut memory, &mut work, 2, 6).unwrap();
    for (i, part) in pairs(WHOLE).chunks(6).enumerate() {
        let mut run = DequeRun::open_in(&table, memory, &mut work).unwrap();
        assert_eq!(run.turns(), 3 * i as u64);
        run.list(part).unwrap();
        memory = run.into_memory();
    }
    let refused_memory = DequeRun::open_in(&[], memory, &mut work).err().unwrap();
    assert_eq!(refused_memory.refusal, refused(32, 0));
    assert!(DequeRun::open_in(&table, refused_memory.memory, &mut work).unwrap().ended());
}

fn drawn_pair(draw: &mut Draw, p: u32) -> (u32, u32) {
    let p = u64::from(p);
    (draw.below(p) as u32, if draw.chance(50) { draw.below(p) as u32 } else { draw.below(p.min(2)) as u32 })
}

/// Random runs turn by turn and over lists, put away in between, also of filled-out tables; each within its limit.
#[test]
fn random_runs() {
    let (mut draw, mut work, mut filled_out, mut steals, mut finished) = (Draw(13), Work::new(), 0, 0, 0);
    let mut limit_work = LimitWork::new();
    for _ in 0..120 {
        let (table, p, most) = drawn(&mut draw);
        let quota = if draw.chance(30) { 20 + draw.below(50) as u32 } else { most };
        let (data, out) = (bytes(&table), filled(&table, quota));
        if out.len() > 1024 || out.concat().len() > 8192 {
            continue;
        }
        filled_out += u32::from(out != table);
        let (mut memory, mut room, firsts) = (Memory::new(), vec![0; TABLE_MOST], firsts(&out));
        DequeRun::begin_filling(&data, &mut room, &mut memory, &mut work, p, quota).unwrap();
        let (running, mut machine) = (bytes(&out), Machine::begin(&out, p as usize, quota));
        while !machine.ended() && machine.turns < 3000 {
            memory = Memory::from_bytes(&memory.to_bytes());
            let mut run = DequeRun::open(&running, &mut memory, &mut work).unwrap();
            same(&run, &machine, &firsts);
            for _ in 0..draw.below(80) {
                if machine.ended() {
                    break;
                }
                let (w, c) = drawn_pair(&mut draw, p);
                let free = run.worker(w).is_none();
                let said = machine.turn(w as usize, c as usize);
                steals += u32::from(free && said != Said::Idle);
                assert_eq!(run.turn(w, c), Ok(reply(said, &firsts)));
            }
            same(&run, &machine, &firsts);
            let (order, before) = ((0..draw.below(60)).map(|_| drawn_pair(&mut draw, p)).collect::<Vec<_>>(), machine.turns);
            for (w, c) in &order {
                if !machine.ended() {
                    machine.turn(*w as usize, *c as usize);
                }
            }
            let turns = machine.turns - before;
            let report = if machine.ended() { Report::Finished { turns } } else { Report::Spent { turns } };
            assert_eq!(run.list(&order.iter().flat_map(|(w, c)| [*w as u8, *c as u8]).collect::<Vec<_>>()), Ok(report));
            same(&run, &machine, &firsts);
        }
        finished += u32::from(machine.ended());
        let limits = deque_limit(&mut limit_work, &data, &mut room, p, quota, p).unwrap();
        assert!(machine.highest <= limits.memory, "{} above {limits:?}", machine.highest);
    }
    assert!(filled_out > 10 && steals > 1000 && finished > 80, "{filled_out} {steals} {finished}");
}

/// The text is the header's.
#[test]
fn text_is_of_the_header() {
    let header = include_str!("../../../../include/wivakkol_deques.h");
    let line = header.lines().find(|line| line.starts_with("#define WIVAKKOL_REFUSED_CHOICE 49")).unwrap();
    assert!(line.contains(&format!("/* {} */", refused(49, 0).meaning())), "{line}");
}

/// The limit for choices below c and for choices 0, and its refusals in their order.
#[test]
fn limits_of_choices() {
    let (table, mut filled) = (bytes(&e()), [0; TABLE_MOST]);
    let ask = |table: &[u8], filled: &mut [u8], p, quota, c| deque_limit(&mut LimitWork::new(), table, filled, p, quota, c);
    assert_eq!(ask(&table, &mut [], 2, 6, 1), Ok(DequeLimits { memory: 12, near: 12 }));
    assert_eq!(ask(&table, &mut filled, 2, 5, 2), Ok(DequeLimits { memory: 12, near: 12 }));
    assert_ne!(filled[0], 0);
    assert_eq!(ask(&table, &mut filled[..175], 2, 5, 2), Err(refused(61, 0)));
    assert_eq!(ask(&table, &mut [], 2, 0, 2), Err(refused(21, 0)));
    assert_eq!(ask(&table, &mut [], 2, 0, 0), Err(refused(49, 0)));
    assert_eq!(ask(&table, &mut [], 2, 0, 258), Err(refused(49, 0)));
    assert_eq!(ask(&table, &mut [], 258, 0, 0), Err(refused(20, 0)));
    assert_eq!(ask(&[1, 0, 1], &mut [], 0, 0, 0), Err(refused(1, 0)));
    assert_eq!(ask(&bytes(&vec![vec![Alloc(513), End]]), &mut filled, 1, 1, 1), Err(refused(44, 0)));
    // three threads with 5 each: c + 1 of them at once
    let child = vec![Alloc(5), Free(5), End];
    let fan = bytes(&vec![vec![Fork(1), Fork(2), Fork(3), Join(3), Join(2), Join(1), End], child.clone(), child.clone(), child]);
    assert_eq!(ask(&fan, &mut [], 3, 5, 1), Ok(DequeLimits { memory: 10, near: 10 }));
    assert_eq!(ask(&fan, &mut [], 3, 5, 2), Ok(DequeLimits { memory: 15, near: 10 }));
}
