//! Runs that have their table and memory: moved to threads, put away, refused.
use crate::cases::{e, refused};
use crate::model::bytes;
use std::sync::{Arc, Mutex};
use std::thread;
use wivakkol::{Memory, OwnedRun, Report, Run, Work};

type Boxed = OwnedRun<Box<[u8]>, Box<Memory>>;

fn begun(p: u32) -> Boxed {
    OwnedRun::begin(bytes(&e()).into_boxed_slice(), Box::new(Memory::new()), &mut Work::new(), p, 6).unwrap()
}

/// A run goes from thread to thread, some turns in each; it is the same as one that stays.
#[test]
fn moved_to_threads() {
    let (table, mut memory) = (bytes(&e()), Memory::new());
    let mut stays = Run::begin(&table, &mut memory, &mut Work::new(), 2, 6).unwrap();
    let mut moves = begun(2);
    for order in [&[0, 1, 0][..], &[1, 0], &[0, 1, 0, 1, 0, 1, 0, 1, 0]] {
        let said = stays.list(order);
        moves = thread::spawn(move || {
            assert_eq!(moves.run().list(order), said);
            moves
        })
        .join()
        .unwrap();
        let run = moves.run();
        assert_eq!((run.held(), run.highest(), run.turns(), run.ended()), (stays.held(), stays.highest(), stays.turns(), stays.ended()));
    }
    assert_eq!(format!("{moves:?}"), format!("{stays:?}").replace("Run {", "OwnedRun {"));
    let (kept_table, kept) = moves.into_parts();
    assert!(*kept_table == *table && kept.to_bytes() == stays.into_memory().to_bytes());
}

/// One run behind a lock, three threads that nothing here outlives: each a worker.
#[test]
fn shared_by_threads() {
    let shared = Arc::new(Mutex::new(begun(3)));
    let workers: Vec<_> =
        (0..3).map(|w| (w, Arc::clone(&shared))).map(|(w, shared)| thread::spawn(move || while shared.lock().unwrap().run().turn(w).is_ok() {})).collect();
    for worker in workers {
        worker.join().unwrap();
    }
    let mut owned = Arc::into_inner(shared).unwrap().into_inner().unwrap();
    assert_eq!((owned.run().ended(), owned.run().held(), owned.run().turn(0)), (true, 0, Err(refused(31, 0))));
}

/// Put away and taken up; other pointers for table and memory; refused with both as they were.
#[test]
fn opened_and_refused() {
    let mut owned = begun(2);
    assert_eq!(owned.run().rounds(5), Ok(Report::Spent { turns: 5 }));
    let (table, memory) = owned.into_parts();
    let (table, place): (Arc<[u8]>, *const Memory) = (table.into(), &*memory);
    let mut owned = OwnedRun::open(Arc::clone(&table), memory, &mut Work::new()).unwrap();
    assert_eq!((owned.run().turns(), owned.run().rounds(u32::MAX).is_ok(), owned.run().ended()), (5, true, true));
    let (_, memory) = owned.into_parts();
    let kept = memory.to_bytes();
    let back = OwnedRun::open([0; 3], memory, &mut Work::new()).unwrap_err();
    assert_eq!((back.refusal, back.memory.0), (refused(32, 0), [0; 3]));
    assert!(std::ptr::eq(place, &*back.memory.1) && back.memory.1.to_bytes() == kept);
    let mut lent = Memory::new();
    assert_eq!(OwnedRun::begin(table, &mut lent, &mut Work::new(), 2, 5).unwrap_err(), refused(61, 0));
    assert!(lent.to_bytes() == [0; Memory::BYTES]);
}

/// It may go where its table and memory may, and borrows nothing.
#[test]
fn may_be_sent() {
    fn sent<T: Send + Sync + 'static>(_: &T) {}
    sent(&begun(1));
}
