//! Tables from a builder, compared byte for byte with those that the model writes of the same actions.
use crate::model::Action::{self, Alloc, End, Fork, Free, Join, Work};
use crate::model::{bytes, facts, Draw, Table};
use wivakkol::{Builder, Facts, NotBuilt, Refusal, TablesWork, Thread, TABLE_MOST};

fn written(builder: &Builder) -> Result<(Vec<u8>, Facts), NotBuilt> {
    let mut out = [255; TABLE_MOST];
    let (table, facts) = builder.write(&mut TablesWork::new(), &mut out)?;
    Ok((table.to_vec(), facts))
}

/// Puts an action; the number of a forked or joined thread is the builder's.
fn put(builder: &mut Builder, thread: Thread, action: Action) -> Result<(Action, Option<Thread>), NotBuilt> {
    match action {
        Work => builder.work(thread).map(|()| (Work, None)),
        Alloc(x) => builder.alloc(thread, x).map(|()| (action, None)),
        Free(x) => builder.free(thread, x).map(|()| (action, None)),
        Fork(_) => builder.fork(thread).map(|child| (Fork(child.number()), Some(child))),
        Join(_) => builder.join(thread).map(|child| (Join(child.number()), None)),
        End => Ok((End, None)),
    }
}

/// Thread by thread, as the model numbers them: the same table.
#[test]
fn tables_of_the_model() {
    let mut draw = Draw(31);
    for most in [1, 3, 20, 200, 1024].repeat(10) {
        let table = draw.table(most);
        let (mut builder, mut threads) = (Builder::new(), vec![Thread::ROOT]);
        for (t, body) in table.iter().enumerate() {
            for action in body {
                let (done, child) = put(&mut builder, threads[t], *action).unwrap();
                assert_eq!(done, *action);
                threads.extend(child);
            }
        }
        let (data, found) = written(&builder).unwrap();
        assert_eq!(data, bytes(&table));
        let sizes = (found.threads.into(), found.actions.into());
        assert_eq!((sizes, (found.peak, found.depth, found.nested)), ((table.len(), table.iter().map(Vec::len).sum::<usize>()), facts(&table)));
    }
}

/// The same tables with their threads taken in any order, so that numbers differ: as the builder says them, and accepted with the same facts.
#[test]
fn threads_in_any_order() {
    let mut draw = Draw(32);
    for most in [3, 20, 200].repeat(10) {
        let table = draw.table(most);
        let (mut builder, mut made): (_, Table) = (Builder::new(), vec![vec![]]);
        let mut left = vec![(Thread::ROOT, table[0].iter())];
        while !left.is_empty() {
            let i = draw.below(left.len() as u64) as usize;
            let (thread, actions) = &mut left[i];
            let Some(action) = actions.next() else {
                let _ = left.swap_remove(i);
                continue;
            };
            let (done, child) = put(&mut builder, *thread, *action).unwrap();
            made[usize::from(thread.number())].push(done);
            if let (Some(child), Fork(c)) = (child, *action) {
                assert_eq!(usize::from(child.number()), made.len());
                made.push(vec![]);
                left.push((child, table[usize::from(c)].iter()));
            }
        }
        let (data, found) = written(&builder).unwrap();
        assert_eq!(data, bytes(&made));
        assert_eq!((found.peak, found.depth, found.nested), facts(&table));
    }
}

/// E, and the least table.
#[test]
fn examples() {
    let mut builder = Builder::new();
    assert_eq!(written(&builder).unwrap().0, [1, 0, 1, 0, 0, 0, 1, 0, 0, 0, 0, 0]);
    let (first, second) = (builder.fork(Thread::ROOT).unwrap(), builder.fork(Thread::ROOT).unwrap());
    for thread in [second, first] {
        builder.alloc(thread, 6).unwrap();
        if thread == first {
            builder.work(thread).unwrap();
        }
        builder.free(thread, 6).unwrap();
    }
    builder.join_all(Thread::ROOT).unwrap();
    assert_eq!(written(&builder).unwrap().0, include_bytes!("../../../../examples/e.table"));
}

/// What is refused at once, with nothing put.
#[test]
fn refused_at_once() {
    let mut builder = Builder::new();
    let child = builder.fork(Thread::ROOT).unwrap();
    let before = builder.clone();
    for amount in [0, 16_777_216, u32::MAX] {
        assert_eq!(builder.alloc(child, amount), Err(NotBuilt::Amount { thread: child, amount }));
        assert_eq!(builder.free(child, amount), Err(NotBuilt::Amount { thread: child, amount }));
    }
    assert_eq!(builder.join(child), Err(NotBuilt::NothingToJoin { thread: child }));
    let mut other = Builder::new();
    for error in [other.work(child), other.alloc(child, 1), other.join(child).map(|_| ()), other.join_all(child), other.fork(child).map(|_| ())] {
        assert_eq!(error, Err(NotBuilt::NoSuchThread { thread: child }));
    }
    assert_eq!(written(&other).unwrap().1.actions, 1);
    builder.join(Thread::ROOT).unwrap();
    assert_eq!(builder.join(Thread::ROOT), Err(NotBuilt::NothingToJoin { thread: Thread::ROOT }));
    builder.alloc(child, 16_777_215).unwrap();
    assert_eq!(written(&builder).unwrap().1.peak, 16_777_215);
    let text = NotBuilt::Amount { thread: child, amount: 0 }.to_string();
    assert_eq!(text, "thread 1: an amount of 0, not 1 to 16777215");
    assert!(written(&before).is_err());
}

/// What the check says, with thread and step.
#[test]
fn refused_by_the_check() {
    let mut builder = Builder::new();
    let child = builder.fork(Thread::ROOT).unwrap();
    let grandchild = builder.fork(child).unwrap();
    builder.join(Thread::ROOT).unwrap();
    let unjoined = NotBuilt::Refused { refusal: Refusal { number: 9, place: 4 }, thread: child, step: 1 };
    assert_eq!(written(&builder), Err(unjoined));
    builder.work(child).unwrap();
    builder.join(child).unwrap();
    builder.alloc(grandchild, 6).unwrap();
    builder.free(grandchild, 6).unwrap();
    builder.free(grandchild, 1).unwrap();
    let Err(NotBuilt::Refused { refusal, thread, step }) = written(&builder) else { panic!("a balance below 0") };
    assert_eq!((refusal, thread, step), (Refusal { number: 10, place: 1 }, Thread::ROOT, 1));
    builder.alloc(child, 1).unwrap();
    assert_eq!(written(&builder), Err(NotBuilt::Refused { refusal: Refusal { number: 10, place: 5 }, thread: child, step: 2 }));
    let text = unjoined.to_string();
    assert_eq!(format!("{unjoined:?}"), text);
    let meaning = "a join that is not of the latest child forked and not yet joined, or an end with a child not joined";
    assert_eq!(text, format!("refused 9 at action 4: {meaning} (thread 1, step 1)"));
}

/// 1,024 threads and 8,192 actions, ends included, and no more.
#[test]
fn as_large_as_may_be() {
    let mut builder = Builder::new();
    for _ in 1..1024 {
        builder.fork(Thread::ROOT).unwrap();
    }
    assert_eq!(builder.fork(Thread::ROOT), Err(NotBuilt::TooLarge));
    builder.join_all(Thread::ROOT).unwrap();
    for _ in 0..8192 - 1024 - 2 * 1023 {
        builder.work(Thread::ROOT).unwrap();
    }
    assert_eq!(builder.work(Thread::ROOT), Err(NotBuilt::TooLarge));
    let (data, found) = written(&builder).unwrap();
    assert_eq!((data.len(), found.threads, found.actions), (TABLE_MOST, 1024, 8192));
    let mut builder = Builder::new();
    for _ in 0..8190 {
        builder.work(Thread::ROOT).unwrap();
    }
    assert_eq!(builder.fork(Thread::ROOT), Err(NotBuilt::TooLarge));
    builder.alloc(Thread::ROOT, 3).unwrap();
    assert_eq!(written(&builder).unwrap().1.actions, 8192);
}
