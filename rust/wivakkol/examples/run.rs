//! A run of the table in a file to its end, turn by turn, workers in rounds: `cargo run --example run -- TABLE p K`.
use std::{env, error::Error, fs};
use wivakkol::{check, Memory, Reply, Run, TablesWork, Work};

fn main() -> Result<(), Box<dyn Error>> {
    let words: Vec<String> = env::args().collect();
    let [_, file, p, quota] = &words[..] else {
        return Err("usage: run TABLE p K".into());
    };
    let table = fs::read(file)?;
    // n is at most 1,024, so that the second byte of a table is below 5, and that of a text is not.
    if table.get(1).is_some_and(|&byte| byte >= 9) {
        return Err(format!("{file} is a text, and a run takes the table's bytes: tools/wivakkol asm {file} -o TABLE makes them").into());
    }
    let facts = check(&mut TablesWork::new(), &table)?;
    println!("table {} {} serial {} depth {}", facts.threads, facts.actions, facts.peak, facts.depth);

    let (mut memory, mut work) = (Memory::new(), Work::new());
    let mut run = Run::begin(&table, &mut memory, &mut work, p.parse()?, quota.parse()?)?;
    while !run.ended() {
        let worker = (run.turns() % u64::from(run.workers())) as u32;
        match run.turn(worker)?.reply {
            Reply::Idle => println!("{worker} idle"),
            // Here a board would do the action.
            Reply::Done { thread, action } => {
                let what = run.action(action).expect("a turn names an action of its table");
                println!("{worker} thread {thread} action {action}, {what:?}, {} held", run.held());
            }
            Reply::Quota { thread, wanted } => println!("{worker} thread {thread} given up: {wanted} is above the quota left"),
            Reply::Wait { thread, child } => println!("{worker} thread {thread} waits for {child}"),
        }
    }
    println!("done {} peak {}", run.turns(), run.highest());
    Ok(())
}
