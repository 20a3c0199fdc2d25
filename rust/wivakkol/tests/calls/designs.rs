//! Whole tables: the worked cases of canonical forms, comparisons and joined tables; random tables under other numbers, and joined, compared with forms and tables that are made here in another
//! way.
use crate::model::Action::*;
use crate::model::{bytes, facts, Action, Draw, Table};
use std::cmp::Ordering::{self, Equal, Greater, Less};
use wivakkol::{check, Facts, Refusal, RefusedJoin, RefusedTable, TablesWork, TABLE_MOST};

/// The same actions with other names for the threads.
fn renamed(body: &[Action], name: impl Fn(u16) -> u16) -> Vec<Action> {
    let rename = |action: &Action| match *action {
        Fork(c) => Fork(name(c)),
        Join(c) => Join(name(c)),
        other => other,
    };
    body.iter().map(rename).collect()
}

/// The table with its threads in another order, the root first.
fn reordered(table: &Table, order: &[u16]) -> Table {
    let name = |t: u16| order.iter().position(|u| *u == t).expect("every thread is there") as u16;
    order.iter().map(|t| renamed(&table[usize::from(*t)], name)).collect()
}

/// "threads are numbered by the serial order of their forks": those that a thread forks, each followed by its own.
fn forked(table: &Table, t: u16, order: &mut Vec<u16>) {
    order.push(t);
    for action in &table[usize::from(t)] {
        if let Fork(c) = *action {
            forked(table, c, order);
        }
    }
}

fn form(table: &Table) -> Table {
    let mut order = Vec::new();
    forked(table, 0, &mut order);
    reordered(table, &order)
}

/// The threads in any order in which each comes after the one that forks it.
fn shuffled(draw: &mut Draw, table: &Table) -> Table {
    let (mut order, mut ready) = (Vec::new(), vec![0]);
    while !ready.is_empty() {
        let t = ready.swap_remove(draw.below(ready.len() as u64) as usize);
        order.push(t);
        ready.extend(table[usize::from(t)].iter().filter_map(|action| if let Fork(c) = *action { Some(c) } else { None }));
    }
    reordered(table, &order)
}

/// What the call gives; what it does not write of the buffer stays.
fn canonical(table: &[u8]) -> Result<Vec<u8>, Refusal> {
    let mut out = [0xa5; TABLE_MOST];
    let answer = wivakkol::canonical(&mut TablesWork::new(), table, &mut out).map(<[u8]>::to_vec);
    let written = answer.as_ref().map_or(0, Vec::len);
    assert!(out[written..].iter().all(|x| *x == 0xa5));
    answer
}

fn compare(first: &[u8], second: &[u8]) -> Result<Ordering, RefusedTable> {
    let (mut a, mut b) = ([0xa5; TABLE_MOST], [0xa5; TABLE_MOST]);
    let answer = wivakkol::compare(&mut TablesWork::new(), first, second, &mut a, &mut b);
    let forms = if answer.is_ok() { [canonical(first).unwrap(), canonical(second).unwrap()] } else { [Vec::new(), Vec::new()] };
    for (out, form) in [a, b].iter().zip(&forms) {
        assert_eq!(out[..form.len()], form[..]);
        assert!(out[form.len()..].iter().all(|x| *x == 0xa5));
    }
    answer
}

fn in_table(number: u32, place: u64, table: usize) -> Result<Ordering, RefusedTable> {
    Err(RefusedTable { refusal: Refusal { number, place }, table })
}

fn e() -> Table {
    vec![vec![Fork(1), Fork(2), Join(2), Join(1), End], vec![Alloc(6), Work, Free(6), End], vec![Alloc(6), Free(6), End]]
}

/// A thread that forks these children and joins them again.
fn parent(children: &[u16]) -> Vec<Action> {
    let joins = children.iter().rev().map(|c| Join(*c));
    children.iter().map(|c| Fork(*c)).chain(joins).chain([End]).collect()
}

#[test]
fn worked_forms() {
    let f = vec![vec![Fork(2), Fork(1), Join(1), Join(2), End], vec![Alloc(6), Free(6), End], vec![Alloc(6), Work, Free(6), End]];
    let g = vec![parent(&[1, 2]), parent(&[3]), vec![Work, End], vec![Alloc(1), End]];
    let form_of_g = vec![parent(&[1, 3]), parent(&[2]), vec![Alloc(1), End], vec![Work, End]];
    assert_eq!(canonical(&bytes(&e())), Ok(bytes(&e())));
    assert_eq!(canonical(&bytes(&f)), Ok(bytes(&e())));
    assert_eq!(canonical(&bytes(&g)), Ok(bytes(&form_of_g)));
    assert_eq!(canonical(&bytes(&form_of_g)), Ok(bytes(&form_of_g)));
    assert_eq!(canonical(&bytes(&vec![vec![End]])), Ok(bytes(&vec![vec![End]])));
    assert_eq!(canonical(&[]), Err(Refusal { number: 1, place: 0 }));
    assert_eq!(canonical(&bytes(&vec![vec![Alloc(6), Free(7), End]])), Err(Refusal { number: 10, place: 1 }));
}

#[test]
fn worked_comparisons() {
    let (e, least, two) = (bytes(&e()), bytes(&vec![vec![End]]), bytes(&vec![vec![Alloc(4), Alloc(4), End]]));
    let f = bytes(&vec![vec![Fork(2), Fork(1), Join(1), Join(2), End], vec![Alloc(6), Free(6), End], vec![Alloc(6), Work, Free(6), End]]);
    let h = bytes(&vec![parent(&[1, 2]), vec![Alloc(6), Free(6), End], vec![Alloc(6), Work, Free(6), End]]);
    let alloc = |x: u32| bytes(&vec![vec![Alloc(x), End]]);
    let fan = |n: u16| bytes(&[vec![parent(&(1..n).collect::<Vec<_>>())], vec![vec![End]; usize::from(n) - 1]].concat());
    assert_eq!(compare(&f, &e), Ok(Equal));
    assert_eq!(compare(&e, &e), Ok(Equal));
    assert_eq!((compare(&least, &e), compare(&e, &least)), (Ok(Less), Ok(Greater)));
    assert_eq!(compare(&e, &two), Ok(Greater));
    assert_eq!(compare(&alloc(256), &alloc(1)), Ok(Less));
    assert_eq!(compare(&e, &h), Ok(Greater));
    assert_eq!(compare(&fan(256), &least), Ok(Less));
    let bad = bytes(&vec![vec![Alloc(6), Free(7), End]]);
    assert_eq!(compare(&bad, &[]), in_table(10, 1, 0));
    assert_eq!(compare(&e, &bad), in_table(10, 1, 1));
    assert_eq!(compare(&e, &[]), in_table(1, 0, 1));
    let refused = compare(&e, &bad).unwrap_err();
    assert_eq!(format!("{refused:?}"), refused.to_string());
    assert_eq!(refused.to_string(), "table 1: refused 10 at action 1: the thread's balance falls below 0");
}

/// Under other numbers the form is the same, so that two of them are equal; a form is its own form and has the same facts. Other tables stand as the bytes of their forms do.
#[test]
fn random_designs() {
    let (mut draw, mut work) = (Draw(14), TablesWork::new());
    let (mut other, mut kinds) = (bytes(&e()), [0; 3]);
    for _ in 0..200 {
        let most = [3, 20, 200, 1024][draw.below(4) as usize];
        let table = draw.table(most);
        let again = shuffled(&mut draw, &table);
        let (one, two, wanted) = (bytes(&table), bytes(&again), bytes(&form(&table)));
        assert_eq!(canonical(&one).as_ref(), Ok(&wanted));
        assert_eq!(canonical(&two).as_ref(), Ok(&wanted));
        assert_eq!(canonical(&wanted).as_ref(), Ok(&wanted));
        assert_eq!(check(&mut work, &wanted), check(&mut work, &one));
        assert_eq!(compare(&one, &two), Ok(Equal));
        let order = wanted.cmp(&canonical(&other).unwrap());
        assert_eq!((compare(&one, &other), compare(&other, &two)), (Ok(order), Ok(order.reverse())));
        kinds[(order as i8 + 1) as usize] += 1;
        other = two;
    }
    assert!(kinds[0] > 20 && kinds[2] > 20, "{kinds:?}");
}

/// "a new thread 0 forks each part's root in the order given, joins them in reverse, and ends; the parts' threads follow part by part"
fn joined(parts: &[Table]) -> Table {
    let (mut whole, mut roots) = (vec![Vec::new()], Vec::new());
    for part in parts {
        let root = whole.len() as u16;
        roots.push(root);
        whole.extend(part.iter().map(|body| renamed(body, |t| root + t)));
    }
    whole[0] = parent(&roots);
    whole
}

/// What the call gives for these bytes, the rest of the buffer being as it was.
fn join(tables: &[u8], lengths: &[u32]) -> Result<(Vec<u8>, Facts), RefusedJoin> {
    let mut out = [0xa5; TABLE_MOST];
    let answer = wivakkol::join(&mut TablesWork::new(), tables, lengths, &mut out).map(|(table, facts)| (table.to_vec(), facts));
    let written = answer.as_ref().map_or(0, |(table, _)| table.len());
    assert!(out[written..].iter().all(|x| *x == 0xa5));
    answer
}

fn join_tables(parts: &[Table]) -> Result<(Vec<u8>, Facts), RefusedJoin> {
    let parts: Vec<Vec<u8>> = parts.iter().map(bytes).collect();
    join(&parts.concat(), &parts.iter().map(|part| part.len() as u32).collect::<Vec<_>>())
}

fn refused(number: u32, place: u64, part: Option<usize>) -> RefusedJoin {
    RefusedJoin { refusal: Refusal { number, place }, part }
}

/// n, m, S1, D and N of the joined parts, whose bytes are the model's.
fn joined_facts(parts: &[Table]) -> Result<(u16, u16, u64, u16, u16), RefusedJoin> {
    let (table, facts) = join_tables(parts)?;
    assert_eq!(table, bytes(&joined(parts)));
    assert_eq!(check(&mut TablesWork::new(), &table), Ok(facts));
    Ok((facts.threads, facts.actions, facts.peak, facts.depth, facts.nested))
}

fn least() -> Table {
    vec![vec![End]]
}

#[test]
fn worked_joins() {
    let two = vec![vec![Alloc(4), Alloc(4), End]];
    assert_eq!(joined_facts(&[least()]), Ok((2, 4, 0, 4, 2)));
    assert_eq!(joined_facts(&[e(), e()]), Ok((7, 29, 6, 13, 3)));
    assert_eq!(joined_facts(&[two.clone(), e()]), Ok((5, 20, 14, 13, 3)));
    assert_eq!(joined_facts(&[e(), two]), Ok((5, 20, 8, 11, 3)));
    assert_eq!(joined_facts(&vec![least(); 16]), Ok((17, 49, 0, 34, 2)));
    let chain: Table = (0..1023).map(|t| if t < 1022 { parent(&[t + 1]) } else { vec![End] }).collect();
    assert_eq!(joined_facts(&[chain.clone()]), Ok((1024, 3070, 0, 3070, 1024)));
    assert_eq!(joined_facts(&[chain, least()]), Err(refused(48, 0, None)));
    let long = |m: usize| vec![[vec![Work; m - 1], vec![End]].concat()];
    assert_eq!(joined_facts(&[long(8189)]), Ok((2, 8192, 0, 8192, 2)));
    assert_eq!(joined_facts(&[long(8190)]), Err(refused(48, 0, None)));
}

#[test]
fn refused_joins() {
    let (e, bad) = (bytes(&e()), bytes(&vec![vec![Alloc(6), Free(7), End]]));
    let least = bytes(&least());
    assert_eq!(join(&[], &[]), Err(refused(47, 0, None)));
    assert_eq!(join(&least.repeat(17), &[12; 17]), Err(refused(47, 0, None)));
    assert_eq!(join(&e, &[63]), Err(refused(47, 0, None)));
    assert_eq!(join(&e, &[65]), Err(refused(47, 0, None)));
    assert_eq!(join(&e, &[u32::MAX, 65]), Err(refused(47, 0, None))); // 64 in 32 bits
    assert_eq!(join(&e, &[0, 64]), Err(refused(1, 0, Some(0))));
    assert_eq!(join(&[&e[..], &bad].concat(), &[64, bad.len() as u32, 0]), Err(refused(10, 1, Some(1))));
    assert_eq!(join(&[&e[..], &bad].concat(), &[64, 0, bad.len() as u32]), Err(refused(1, 0, Some(1))));
    assert_eq!(format!("{:?}", refused(10, 1, Some(1))), refused(10, 1, Some(1)).to_string());
    assert_eq!(refused(10, 1, Some(1)).to_string(), "part 1: refused 10 at action 1: the thread's balance falls below 0");
    assert_eq!(refused(48, 0, None).to_string(), "refused 48: the joined table passes 1,024 threads or 8,192 actions");
}

/// S1, D and N come from the parts alone, and are those of the whole.
#[test]
fn random_joins() {
    let (mut draw, mut too_large) = (Draw(12), 0);
    for _ in 0..150 {
        let count = 1 + draw.below(16);
        let most = [3, 20, 200][draw.below(3) as usize];
        let parts: Vec<Table> = (0..count).map(|_| draw.table(most)).collect();
        let whole = joined(&parts);
        if whole.len() > 1024 || whole.concat().len() > 8192 {
            assert_eq!(join_tables(&parts), Err(refused(48, 0, None)));
            too_large += 1;
            continue;
        }
        let (peak, depth, nested) = facts(&whole);
        assert_eq!(joined_facts(&parts), Ok((whole.len() as u16, whole.concat().len() as u16, peak, depth, nested)));
    }
    assert!(too_large > 5 && too_large < 100, "{too_large}");
}
