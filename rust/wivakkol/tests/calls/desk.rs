//! Tables as text: the examples, each class of mistake with its words, buffers that are too short, and random tables there and back.
use crate::model::{bytes, Action, Draw};
use std::fs;
use wivakkol::{assemble, check, disassemble, Expected, NotAssembled, NotListed, Refusal, TablesWork, Unseen, TABLE_MOST, TEXT_LONGEST, TEXT_MOST};

const EXAMPLES: &str = concat!(env!("CARGO_MANIFEST_DIR"), "/../../examples");

fn assembled(text: &[u8]) -> Result<Vec<u8>, NotAssembled> {
    let mut out = vec![0xa5; TABLE_MOST];
    assemble(&mut TablesWork::new(), text, &mut out).map(<[u8]>::to_vec)
}

fn listed(table: &[u8]) -> Result<Vec<u8>, NotListed> {
    let mut out = vec![0xa5; TEXT_MOST];
    disassemble(&mut TablesWork::new(), table, &mut out).map(<[u8]>::to_vec)
}

fn refused(number: u32, place: u64, line: u64) -> Result<Vec<u8>, NotAssembled> {
    Err(NotAssembled::Refused { refusal: Refusal { number, place }, line: Some(line) })
}

fn line(line: u64, expected: Expected, unseen: Option<Unseen>) -> Result<Vec<u8>, NotAssembled> {
    Err(NotAssembled::Line { line, expected, unseen })
}

#[test]
fn examples_there_and_back() {
    for name in ["e", "parts", "stages", "tree", "repeats"] {
        let text = fs::read(format!("{EXAMPLES}/{name}.text")).unwrap();
        let table = assembled(&text).unwrap();
        assert!(check(&mut TablesWork::new(), &table).is_ok());
        assert_eq!(assembled(&listed(&table).unwrap()), Ok(table));
    }
    let text = listed(&fs::read(format!("{EXAMPLES}/e.table")).unwrap()).unwrap();
    assert!(text.starts_with(b"thread 0\nfork 1 # action 0\nfork 2 # action 1\n"));
}

#[test]
fn mistakes() {
    assert_eq!(assembled(b"thread 0\n weave\n"), line(2, Expected::Keyword, None));
    assert_eq!(assembled(b"thread 0\n alloc\n"), line(2, Expected::Number, None));
    assert_eq!(assembled(b"thread 0\n alloc 16777216\n"), line(2, Expected::Number, None));
    assert_eq!(assembled(b"\n\nthread 0\n end 1\n"), line(4, Expected::LineEnd, None));
    assert_eq!(assembled(b"thread 0\n end\nthread 2\n"), line(3, Expected::Thread(1), None));
    assert_eq!(assembled(b"thread 0\n alloc 6\r\n"), line(2, Expected::Number, Some(Unseen::CarriageReturn)));
    assert_eq!(assembled(b"\xef\xbb\xbfthread 0\n"), line(1, Expected::Keyword, Some(Unseen::ByteOrderMark)));
    assert_eq!(assembled(b"thread 0\n alloc 6\n free 7\n end\n"), refused(10, 1, 3));
    assert_eq!(assembled(b"thread 0\n end\nthread 1\n end\n"), refused(11, 1, 3));
    assert_eq!(assembled(b""), Err(NotAssembled::Refused { refusal: Refusal { number: 2, place: 0 }, line: None }));
    assert_eq!(assembled(&vec![b'#'; TEXT_LONGEST + 1]), Err(NotAssembled::TooLong));
    assert_eq!(listed(b""), Err(NotListed::Refused(Refusal { number: 1, place: 0 })));
}

#[test]
fn words() {
    let said = |text: &[u8]| {
        let fault = assembled(text).unwrap_err();
        assert_eq!(format!("{fault:?}"), fault.to_string());
        fault.to_string()
    };
    assert_eq!(format!("{:?}", listed(b"").unwrap_err()), "refused 1: under 4 bytes");
    assert_eq!(said(b"thread 0\n end\nthread 2\n"), "line 3: expected thread 1");
    assert_eq!(said(b"thread 0\r\n"), "line 1: a carriage return; lines end with a newline alone");
    assert_eq!(said(b"thread 0\n alloc 6\n free 7\n end\n"), "line 3: refused 10 at action 1: the thread's balance falls below 0");
    assert_eq!(said(b""), "refused 2: n not 1 to 1,024, or m not 1 to 8,192");
}

/// What does not fit is said with the bytes that do, and leaves the buffer as it was.
#[test]
fn short_buffers() {
    let (text, table) = (fs::read(format!("{EXAMPLES}/e.text")).unwrap(), fs::read(format!("{EXAMPLES}/e.table")).unwrap());
    let mut work = TablesWork::new();
    for room in 0..table.len() {
        let mut out = vec![0xa5; room];
        assert_eq!(assemble(&mut work, &text, &mut out), Err(NotAssembled::Short { bytes: table.len() }));
        assert!(out.iter().all(|x| *x == 0xa5));
    }
    assert_eq!(assemble(&mut work, &text, &mut vec![0; table.len()]), Ok(&table[..]));
    let most = 12 * 3 + 31 * 12;
    let mut out = vec![0xa5; most - 1];
    assert_eq!(disassemble(&mut work, &table, &mut out), Err(NotListed::Short { bytes: most }));
    assert!(out.iter().all(|x| *x == 0xa5));
    let wanted = listed(&table).unwrap();
    assert_eq!(disassemble(&mut work, &table, &mut vec![0; most]), Ok(&wanted[..]));
}

/// The words of a text are those of its table, written here in another way.
#[test]
fn random_tables() {
    let mut draw = Draw(40);
    for _ in 0..300 {
        let table = draw.table(12);
        let said: Vec<String> = table.iter().enumerate().flat_map(|(t, body)| [format!("thread {t}")].into_iter().chain(body.iter().map(word))).collect();
        let data = bytes(&table);
        assert_eq!(assembled(said.join("\n").as_bytes()), Ok(data.clone()));
        let text = String::from_utf8(listed(&data).unwrap()).unwrap();
        let words: Vec<&str> = text.lines().map(|line| line.split(" #").next().unwrap()).collect();
        assert_eq!(words, said);
    }
}

fn word(action: &Action) -> String {
    match *action {
        Action::End => "end".to_string(),
        Action::Work => "work".to_string(),
        Action::Alloc(a) => format!("alloc {a}"),
        Action::Free(a) => format!("free {a}"),
        Action::Fork(c) => format!("fork {c}"),
        Action::Join(c) => format!("join {c}"),
    }
}
