//! Refusals and their texts.
use core::fmt;

/// The first check that applies, and where: an entry of the contents, an action or a thread, 0 where the check has no place (docs/REFERENCE.md, "Refusals"). Its `Debug` is its text too, as that
/// of every error here, since that is what a `main` prints that ends with `?`.
#[derive(Clone, Copy, PartialEq, Eq, Hash)]
pub struct Refusal {
    pub number: u32,
    pub place: u64,
}

/// What a refusal's place is a number of.
#[derive(Clone, Copy, Debug, PartialEq, Eq, Hash)]
pub enum Place {
    Nothing,
    Entry,
    Action,
    Thread,
}

impl Refusal {
    /// `Err` with the refusal where a call has returned its number.
    pub(crate) fn unless_zero(number: u32, place: u64) -> Result<(), Refusal> {
        match number {
            0 => Ok(()),
            _ => Err(Refusal { number, place }),
        }
    }

    /// What `place` counts.
    pub fn kind_of_place(&self) -> Place {
        // made from data/refusals.txt: places
        match self.number {
            4 => Place::Entry,
            5..=10 | 44 => Place::Action,
            11 => Place::Thread,
            _ => Place::Nothing,
        }
        // made to here
    }

    /// What the check found.
    pub fn meaning(&self) -> &'static str {
        // made from data/refusals.txt: meanings
        match self.number {
            1 => "under 4 bytes",
            2 => "n not 1 to 1,024, or m not 1 to 8,192",
            3 => "the length is not 4 + 4·n + 4·m",
            4 => "the entry's first action is not the sum of the counts before it, or its count is 0; at entry n, the counts do not add up to m",
            5 => "the kind is above 5",
            6 => "the argument does not fit: end or work with one, alloc or free of 0, fork or join of a thread not above the own one or not below n",
            7 => "an end that is not the last of its body, or a last action that is no end",
            8 => "the thread has been forked by a lower action",
            9 => "a join that is not of the latest child forked and not yet joined, or an end with a child not joined",
            10 => "the thread's balance falls below 0",
            11 => "the thread, not the root, is forked nowhere",
            20 => "p not 1 to 16",
            21 => "K not 1 to 16,777,215",
            30 => "the worker is not below p",
            31 => "the root has ended",
            32 => "the memory or a set mark has no sound record of the table, or 2^64 − 1 turns are taken",
            41 => "b not 1 to 65,535",
            42 => "no quota from the largest alloc on keeps the bound within M",
            43 => "more than 999,999 turns are taken",
            44 => "the filled-out table would pass 1,024 threads or 8,192 actions",
            45 => "the mark is above 7",
            46 => "the mark is not set",
            47 => "no part, above 16, or lengths that do not add up to the bytes lent",
            48 => "the joined table passes 1,024 threads or 8,192 actions",
            49 => "the choice is not below p; of a limit, c is not 1 to p",
            60 => "the turn would break the rule with the pace's b",
            61 => "too little room for the filled-out table",
            _ => "no number of these calls",
        }
        // made to here
    }
}

impl fmt::Display for Refusal {
    fn fmt(&self, f: &mut fmt::Formatter<'_>) -> fmt::Result {
        write!(f, "refused {}", self.number)?;
        match self.kind_of_place() {
            Place::Nothing => {}
            Place::Entry => write!(f, " at entry {}", self.place)?,
            Place::Action => write!(f, " at action {}", self.place)?,
            Place::Thread => write!(f, " at thread {}", self.place)?,
        }
        write!(f, ": {}", self.meaning())
    }
}

/// An error whose `Debug` is its text too, since that is what a `main` prints that ends with `?`.
macro_rules! error {
    ($error:ty $(, $of:ident)?) => {
        impl$(<$of>)? core::fmt::Debug for $error {
            fn fmt(&self, f: &mut core::fmt::Formatter<'_>) -> core::fmt::Result {
                core::fmt::Display::fmt(self, f)
            }
        }

        impl$(<$of>)? core::error::Error for $error {}
    };
}

pub(crate) use error;

error!(Refusal);
