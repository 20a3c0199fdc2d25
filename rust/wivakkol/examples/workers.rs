//! Workers of one's own: p threads are the workers of one run and do its actions, with real draws and frees, a byte for each unit. docs/WORKERS.md explains it.
//!
//!     cargo run --release --example workers -- TABLE p K
//!
//! Prints p, K and the turns; the peak of real memory, the run's highest and S_p; the b that the turns kept, and demand 3's limit with it. Ends with an error where real memory passed the run's
//! highest, the highest S_p or that limit, or where other memory is left than the run holds.
//!
//! Three orders keep real memory to what the run counts:
//! - an alloc is done after its turn: the run has counted it;
//! - a free is done before the lock of its turn is given back: nobody takes a turn that counts on it before;
//! - a worker has done what a turn said before it takes its next: whoever goes on with the thread, or joins it, does so after that.
use std::error::Error;
use std::sync::{Barrier, Condvar, Mutex};
use std::time::{SystemTime, UNIX_EPOCH};
use std::{env, fs, hint, mem, thread};
use wivakkol::{check, limit, Action, LimitWork, Memory, OwnedRun, Pace, Refusal, Reply, Run, TablesWork, Work, MOST_THREADS, TABLE_MOST};

/// Under the lock: the run, the count of its turns, and what a turn was refused with, but for 31.
struct Shared {
    owned: OwnedRun<Vec<u8>, Box<Memory>>,
    pace: Pace,
    refused: Option<Refusal>,
}

/// Bytes drawn and not freed, and the most of them.
#[derive(Default)]
struct Tally {
    real: u64,
    peak: u64,
}

/// Real memory: each thread of the table has a list of blocks, which only the worker that holds the thread looks at.
struct Blocks {
    of_thread: Vec<Mutex<Vec<Vec<u8>>>>,
    tally: Mutex<Tally>,
}

impl Blocks {
    fn new() -> Blocks {
        Blocks { of_thread: (0..MOST_THREADS).map(|_| Mutex::default()).collect(), tally: Mutex::default() }
    }

    fn draw(&self, thread: u16, amount: u32) {
        let mut tally = self.tally.lock().unwrap();
        tally.real += u64::from(amount);
        tally.peak = tally.peak.max(tally.real);
        drop(tally);
        let block = vec![1; amount as usize];
        self.of_thread[usize::from(thread)].lock().unwrap().push(block);
    }

    /// A free may be of several blocks, or of a part of one.
    fn give_back(&self, thread: u16, amount: u32) {
        let mut blocks = self.of_thread[usize::from(thread)].lock().unwrap();
        let mut left = amount as usize;
        while left > 0 {
            let mut block = blocks.pop().expect("a thread frees what it has");
            if block.len() > left {
                block.truncate(block.len() - left);
                block.shrink_to_fit();
                left = 0;
                blocks.push(block);
            } else {
                left -= block.len();
            }
        }
        drop(blocks);
        self.tally.lock().unwrap().real -= u64::from(amount);
    }

    /// At a join the parent gets what its child holds.
    fn inherit(&self, thread: u16, child: u16) {
        let mut of_child = mem::take(&mut *self.of_thread[usize::from(child)].lock().unwrap());
        self.of_thread[usize::from(thread)].lock().unwrap().append(&mut of_child);
    }

    /// What is left, and the peak of real memory.
    fn end(self) -> (u64, u64) {
        let left = self.of_thread.into_iter().flat_map(|blocks| blocks.into_inner().unwrap()).map(|block| block.len() as u64).sum();
        (left, self.tally.into_inner().unwrap().peak)
    }
}

/// An action takes a while, up to some microseconds, each time another, so that no two runs are alike.
fn take_a_while(seed: &mut u32) {
    *seed = seed.wrapping_mul(1_664_525).wrapping_add(1_013_904_223);
    for i in 0..*seed >> 20 {
        hint::black_box(i);
    }
    if *seed >> 29 == 0 {
        thread::yield_now();
    }
}

/// A turn of worker w, and what it said is done; false once the run is over.
fn step(w: u32, lock: &Mutex<Shared>, ready: &Condvar, blocks: &Blocks, seed: &mut u32) -> bool {
    let mut shared = lock.lock().unwrap();
    let mut run = shared.owned.run();
    let turn = match run.turn(w) {
        Ok(turn) => turn,
        Err(refusal) => {
            if refusal.number != 31 {
                shared.refused = Some(refusal);
            }
            ready.notify_all();
            return false;
        }
    };
    let done = match turn.reply {
        Reply::Done { thread, action } => run.action(action).map(|action| (thread, action)),
        _ => None,
    };
    shared.pace.took(w).expect("the pace has the run's workers");
    if let Some((thread, Action::Free { amount })) = done {
        blocks.give_back(thread, amount);
    }
    // A fork leaves two threads ready, the others one at most. This worker takes one with its next turn, a woken one what is left, or all of it where this one stays away.
    if matches!(done, Some((_, Action::Fork { .. } | Action::End))) || matches!(turn.reply, Reply::Quota { .. }) {
        ready.notify_one();
    }
    if turn.reply == Reply::Idle {
        shared = ready.wait(shared).unwrap();
    }
    drop(shared);

    match done {
        Some((thread, Action::Alloc { amount })) => blocks.draw(thread, amount),
        Some((thread, Action::Join { child })) => blocks.inherit(thread, child),
        _ => {}
    }
    if done.is_some() {
        take_a_while(seed);
    }
    true
}

/// What was seen of a run.
struct Seen {
    turns: u64,
    peak: u64,
    highest: u64,
    most: u64,
    b: u32,
    limit: u64,
    left: u64,
    held: u64,
}

impl Seen {
    fn within(&self) -> bool {
        self.peak <= self.highest && self.highest <= self.most && self.highest <= self.limit && self.left == self.held
    }
}

/// A run of the table by p threads to its end.
fn run_workers(table: &[u8], p: u32, quota: u32) -> Result<Seen, Refusal> {
    let (mut memory, mut work, mut filled) = (Box::new(Memory::new()), Work::new(), vec![0; TABLE_MOST]);
    let most = limit(&mut Box::new(LimitWork::new()), table, &mut filled, p, quota, 0)?.peak;
    let runs = Run::begin_filling(table, &mut filled, &mut memory, &mut work, p, quota)?.table().to_vec();
    let facts = check(&mut TablesWork::new(), &runs)?;
    let owned = OwnedRun::open(runs, memory, &mut work).map_err(|refused| refused.refusal)?;

    let (lock, ready) = (Mutex::new(Shared { owned, pace: Pace::begin(p, 1)?, refused: None }), Condvar::new());
    let (blocks, together) = (Blocks::new(), Barrier::new(p as usize));
    let now = SystemTime::now().duration_since(UNIX_EPOCH).map_or(0, |now| now.subsec_nanos());
    thread::scope(|scope| {
        for w in 0..p {
            let (lock, ready, blocks, together) = (&lock, &ready, &blocks, &together);
            scope.spawn(move || {
                let mut seed = now.wrapping_add(w);
                together.wait();
                while step(w, lock, ready, blocks, &mut seed) {}
            });
        }
    });

    let Shared { mut owned, pace, refused } = lock.into_inner().unwrap();
    if let Some(refusal) = refused {
        return Err(refusal);
    }
    let (run, b, (left, peak)) = (owned.run(), pace.kept().max(1), blocks.end()); // b is at least 1
    let limit = facts.peak + u64::from(b) * u64::from(quota) * u64::from(p - 1) * u64::from(facts.depth - 1);
    Ok(Seen { turns: run.turns(), peak, highest: run.highest(), most, b, limit, left, held: run.held() })
}

fn main() -> Result<(), Box<dyn Error>> {
    let words: Vec<String> = env::args().collect();
    let [_, file, p, quota] = &words[..] else {
        return Err("usage: workers TABLE p K".into());
    };
    let (p, quota) = (p.parse()?, quota.parse()?);
    let table = fs::read(file)?;
    // n is at most 1,024, so that the second byte of a table is below 5, and that of a text is not.
    if table.get(1).is_some_and(|&byte| byte >= 9) {
        return Err(format!("{file} is a text, and a run takes the table's bytes: tools/wivakkol asm {file} -o TABLE makes them").into());
    }
    let seen = run_workers(&table, p, quota)?;
    println!("p {p} K {quota} turns {} peak {} highest {} S_p {} b {} limit {}", seen.turns, seen.peak, seen.highest, seen.most, seen.b, seen.limit);
    if !seen.within() {
        return Err("above".into());
    }
    Ok(())
}

/// Five runs each of examples/tree.text and of the fan of bench/bench.py, within a time.
#[cfg(all(test, feature = "desk"))]
mod tests {
    use super::*;
    use std::sync::mpsc;
    use std::time::Duration;

    fn assembled(text: &[u8]) -> Vec<u8> {
        wivakkol::assemble(&mut TablesWork::new(), text, &mut vec![0; TABLE_MOST]).expect("the text is accepted").to_vec()
    }

    fn tree() -> Vec<u8> {
        assembled(include_bytes!("../../../examples/tree.text"))
    }

    /// A thread with 999 children, each of which draws 64.
    fn fan() -> Vec<u8> {
        let forks: String = (1..1000).map(|t| format!("fork {t}\n")).collect();
        let joins: String = (1..1000).rev().map(|t| format!("join {t}\n")).collect();
        let children: String = (1..1000).map(|t| format!("thread {t}\nalloc 64\nwork\nwork\nfree 64\nend\n")).collect();
        assembled(format!("thread 0\n{forks}{joins}end\n{children}").as_bytes())
    }

    /// `most`: S_p, as docs/WORKERS.md has it.
    fn five_runs(table: fn() -> Vec<u8>, p: u32, quota: u32, most: u64) {
        let (done, ended) = mpsc::channel();
        let runs = thread::spawn(move || {
            let table = table();
            let serial = check(&mut TablesWork::new(), &table).unwrap().peak;
            for _ in 0..5 {
                let seen = run_workers(&table, p, quota).expect("the table runs");
                assert!(seen.within());
                assert_eq!((seen.most, seen.left), (most, 0));
                assert!(serial <= seen.peak);
            }
            done.send(()).unwrap();
        });
        // where the runs hang, the test fails, and its process ends with its threads
        if ended.recv_timeout(Duration::from_secs(120)) == Err(mpsc::RecvTimeoutError::Timeout) {
            panic!("five runs took more than two minutes");
        }
        runs.join().expect("no run was above");
    }

    #[test]
    fn two_workers() {
        five_runs(tree, 2, 12, 208);
        five_runs(fan, 2, 64, 128);
    }

    #[test]
    fn four_workers() {
        five_runs(tree, 4, 12, 1160);
        five_runs(fan, 4, 64, 256);
    }

    #[test]
    fn sixteen_workers() {
        five_runs(tree, 16, 12, 2044);
        five_runs(fan, 16, 64, 1024);
    }

    /// Each of the four that is broken is noticed.
    #[test]
    fn what_is_above() {
        let seen = |peak, highest, most, limit, left| Seen { turns: 9, peak, highest, most, b: 1, limit, left, held: 3 }.within();
        assert!(seen(12, 12, 12, 12, 3));
        assert_eq!([seen(13, 12, 12, 12, 3), seen(12, 12, 11, 12, 3), seen(12, 12, 12, 11, 3), seen(12, 12, 12, 12, 4)], [false; 4]);
    }

    /// Allocs of 8 above the quota: the filled-out table runs.
    #[test]
    fn filled_out() {
        five_runs(tree, 4, 5, 1160);
    }
}
