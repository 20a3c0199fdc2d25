//! Document 01's machine, written on its own: job tables as lists of actions, the list of threads as a row, nothing shared with the crate. For accepted tables; it checks none.

use std::collections::HashMap;

#[derive(Clone, Copy, Debug, PartialEq, Eq)]
pub enum Action {
    End,
    Work,
    Alloc(u32),
    Free(u32),
    Fork(u16),
    Join(u16),
}
use Action::*;

impl Action {
    fn bytes(self) -> [u8; 4] {
        let (kind, argument) = match self {
            End => (0, 0),
            Work => (1, 0),
            Alloc(x) => (2, x),
            Free(x) => (3, x),
            Fork(c) => (4, u32::from(c)),
            Join(c) => (5, u32::from(c)),
        };
        let [a, b, c, _] = argument.to_le_bytes();
        [kind, a, b, c]
    }

    pub fn name(self) -> &'static str {
        match self {
            End => "end",
            Work => "work",
            Alloc(_) => "alloc",
            Free(_) => "free",
            Fork(_) => "fork",
            Join(_) => "join",
        }
    }
}

/// The bodies of the threads.
pub type Table = Vec<Vec<Action>>;

pub fn bytes(table: &Table) -> Vec<u8> {
    let (n, m) = (table.len(), table.iter().map(Vec::len).sum::<usize>());
    let mut out = Vec::new();
    let word = |out: &mut Vec<u8>, x: usize| out.extend((x as u16).to_le_bytes());
    word(&mut out, n);
    word(&mut out, m);
    let mut first = 0;
    for body in table {
        word(&mut out, first);
        word(&mut out, body.len());
        first += body.len();
    }
    out.extend(table.iter().flatten().flat_map(|action| action.bytes()));
    out
}

/// S1, D and N.
pub fn facts(table: &Table) -> (u64, u16, u16) {
    let mut serial = Serial { table, held: 0, peak: 0 };
    serial.run(0);
    let mut ends = HashMap::new();
    (serial.peak, end_level(table, 0, 1, &mut ends), nested(table, 0))
}

struct Serial<'a> {
    table: &'a Table,
    held: u64,
    peak: u64,
}

impl Serial<'_> {
    /// "a forked child runs to its end, its own children included, before the thread that forked it goes on"
    fn run(&mut self, t: u16) {
        for action in &self.table[usize::from(t)] {
            match *action {
                Alloc(x) => self.held += u64::from(x),
                Free(x) => self.held -= u64::from(x),
                Fork(c) => self.run(c),
                _ => {}
            }
            self.peak = self.peak.max(self.held);
        }
    }
}

/// The level of the end of a thread whose first action has level `start`.
fn end_level(table: &Table, t: u16, start: u16, ends: &mut HashMap<u16, u16>) -> u16 {
    let mut level = start - 1;
    for action in &table[usize::from(t)] {
        if let Join(c) = *action {
            level = level.max(ends[&c]);
        }
        level += 1;
        if let Fork(c) = *action {
            let end = end_level(table, c, level + 1, ends);
            ends.insert(c, end);
        }
    }
    level
}

fn nested(table: &Table, t: u16) -> u16 {
    let children = table[usize::from(t)].iter().filter_map(|action| if let Fork(c) = *action { Some(c) } else { None });
    1 + children.map(|c| nested(table, c)).max().unwrap_or(0)
}

/// The filled-out table (N6).
pub fn filled(table: &Table, quota: u32) -> Table {
    let mut out = table.clone();
    fill(table, 0, quota, &mut out);
    out
}

/// "an alloc of a above K gets a fork and a join of a dummy tree in front of it", in serial order.
fn fill(table: &Table, t: u16, quota: u32, out: &mut Table) {
    let mut body = Vec::new();
    for action in &table[usize::from(t)] {
        match *action {
            Fork(c) => fill(table, c, quota, out),
            Alloc(x) if x > quota => {
                let root = tree(x.div_ceil(quota), out);
                body.extend([Fork(root), Join(root)]);
            }
            _ => {}
        }
        body.push(*action);
    }
    out[usize::from(t)] = body;
}

/// A tree of d dummies at the end of a table; its root.
fn tree(d: u32, out: &mut Table) -> u16 {
    let root = out.len();
    out.push(vec![Work, End]);
    if d > 1 {
        let one = tree(d.div_ceil(2), out);
        let other = tree(d / 2, out);
        out[root] = vec![Fork(one), Fork(other), Join(other), Join(one), End];
    }
    root as u16
}

#[derive(Clone, Copy, Debug, PartialEq, Eq)]
pub enum Status {
    Unborn,
    Ready,
    Held,
    Waiting,
    Ended,
}

/// What a turn says; an action is its place in its own thread's body.
#[derive(Clone, Copy, Debug, PartialEq, Eq)]
pub enum Said {
    Idle,
    Done { thread: u16, at: usize },
    Quota { thread: u16, wanted: u32 },
    Wait { thread: u16, child: u16 },
}

#[derive(Clone, Copy, Debug, PartialEq, Eq)]
pub struct Worker {
    pub thread: u16,
    pub quota: u32,
}

/// A run.
#[derive(Clone)]
pub struct Machine<'a> {
    pub table: &'a Table,
    quota: u32,
    pub next: Vec<usize>,
    pub status: Vec<Status>,
    /// "the list of threads that are forked and not ended, leftmost first"
    pub list: Vec<u16>,
    pub workers: Vec<Option<Worker>>,
    pub amounts: Vec<u64>,
    pub held: u64,
    pub highest: u64,
    pub turns: u64,
}

impl<'a> Machine<'a> {
    pub fn begin(table: &'a Table, p: usize, quota: u32) -> Machine<'a> {
        let n = table.len();
        let mut status = vec![Status::Unborn; n];
        status[0] = Status::Ready;
        Machine { table, quota, next: vec![0; n], status, list: vec![0], workers: vec![None; p], amounts: vec![0; n], held: 0, highest: 0, turns: 0 }
    }

    pub fn ended(&self) -> bool {
        self.status[0] == Status::Ended
    }

    /// "The big alloc takes nothing from the quota" (N6).
    fn drawn(&self, x: u32) -> u32 {
        if x > self.quota {
            0
        } else {
            x
        }
    }

    /// A turn of worker w, and how many threads stood left of one that it took.
    pub fn turn(&mut self, w: usize) -> (Said, usize) {
        self.turns += 1;
        let mut passed = 0;
        let worker = match self.workers[w] {
            Some(worker) => worker,
            None => {
                let Some(i) = self.list.iter().position(|t| self.status[usize::from(*t)] == Status::Ready) else {
                    return (Said::Idle, 0);
                };
                passed = i;
                self.status[usize::from(self.list[i])] = Status::Held;
                Worker { thread: self.list[i], quota: self.quota }
            }
        };
        self.workers[w] = None;
        (self.act(w, worker), passed)
    }

    fn act(&mut self, w: usize, worker: Worker) -> Said {
        let thread = worker.thread;
        let t = usize::from(thread);
        let at = self.next[t];
        let done = Said::Done { thread, at };
        let mut kept = worker;
        match self.table[t][at] {
            Alloc(x) if self.drawn(x) > worker.quota => {
                self.status[t] = Status::Ready;
                return Said::Quota { thread, wanted: x };
            }
            Join(child) if self.status[usize::from(child)] != Status::Ended => {
                self.status[t] = Status::Waiting;
                return Said::Wait { thread, child };
            }
            End => {
                self.end(thread);
                return done;
            }
            Fork(c) => {
                let i = self.place(thread);
                self.list.insert(i, c);
                self.status[usize::from(c)] = Status::Ready;
                self.status[t] = Status::Ready;
                self.next[t] += 1;
                return done;
            }
            Alloc(x) => {
                kept.quota -= self.drawn(x);
                self.amounts[t] += u64::from(x);
                self.held += u64::from(x);
                self.highest = self.highest.max(self.held);
            }
            Free(x) => {
                self.amounts[t] -= u64::from(x);
                self.held -= u64::from(x);
            }
            Join(c) => {
                self.amounts[t] += self.amounts[usize::from(c)];
                self.amounts[usize::from(c)] = 0;
            }
            Work => {}
        }
        self.next[t] += 1;
        self.workers[w] = Some(kept);
        done
    }

    /// "the thread leaves the list"; "if its parent waits for this child, the parent becomes ready"
    fn end(&mut self, t: u16) {
        self.status[usize::from(t)] = Status::Ended;
        let i = self.place(t);
        self.list.remove(i);
        for u in self.list.clone() {
            let waits_for_it = self.status[usize::from(u)] == Status::Waiting && self.table[usize::from(u)][self.next[usize::from(u)]] == Join(t);
            if waits_for_it {
                self.status[usize::from(u)] = Status::Ready;
            }
        }
    }

    fn place(&self, t: u16) -> usize {
        self.list.iter().position(|u| *u == t).expect("it is in the list")
    }
}

/// Random numbers, the same in every run of the tests (xorshift).
pub struct Draw(pub u64);

impl Draw {
    pub fn below(&mut self, most: u64) -> u64 {
        self.0 ^= self.0 << 13;
        self.0 ^= self.0 >> 7;
        self.0 ^= self.0 << 17;
        self.0 % most
    }

    pub fn chance(&mut self, percent: u64) -> bool {
        self.below(100) < percent
    }

    /// An accepted table of up to `most` threads, with allocs up to 64.
    pub fn table(&mut self, most: usize) -> Table {
        let mut table = vec![Vec::new()];
        let mut t = 0;
        while t < table.len() {
            table[t] = self.body(t, &mut table, most);
            t += 1;
        }
        table
    }

    /// A body, frees within what it has drawn itself; its children are new threads at the table's end.
    fn body(&mut self, t: usize, table: &mut Table, most: usize) -> Vec<Action> {
        let (mut body, mut unjoined, mut balance) = (Vec::new(), Vec::new(), 0);
        let steps = if t == 0 { 3 + self.below(12) } else { self.below(9) };
        for _ in 0..steps {
            match self.below(6) {
                0 | 1 if table.len() < most => {
                    unjoined.push(table.len() as u16);
                    body.push(Fork(table.len() as u16));
                    table.push(Vec::new());
                }
                2 => {
                    let x = 1 + self.below(64) as u32;
                    balance += x;
                    body.push(Alloc(x));
                }
                3 if balance > 0 => {
                    let x = 1 + self.below(u64::from(balance)) as u32;
                    balance -= x;
                    body.push(Free(x));
                }
                4 if !unjoined.is_empty() => body.push(Join(unjoined.pop().expect("there is one"))),
                _ => body.push(Work),
            }
        }
        body.extend(unjoined.into_iter().rev().map(Join));
        if balance > 0 && self.chance(80) {
            body.push(Free(balance));
        }
        body.push(End);
        body
    }
}
