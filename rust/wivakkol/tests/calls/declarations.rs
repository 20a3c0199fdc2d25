//! The declarations of src/raw.rs are those of the Rattle source, and the blocks of `Memory`, their parts and the other structs those of the headers: nothing else would say where they differ.
use std::collections::BTreeMap;
use std::fs;

const HERE: &str = env!("CARGO_MANIFEST_DIR");

/// Of each function that `start` introduces, its parameters and result; a slice of bytes is written as the pointer and the number that it is for C.
fn functions(text: &str, start: &str) -> BTreeMap<String, Vec<String>> {
    let said = |text: &str| text.split_whitespace().collect::<Vec<_>>().join(" ");
    let mut found = BTreeMap::new();
    for part in text.split(start).skip(1) {
        let (name, rest) = part.split_once('(').expect("a function has parameters");
        let (parameters, rest) = rest.split_once(')').expect("they come to an end");
        let result = rest.trim_start().strip_prefix("-> ").unwrap_or_default();
        let mut words: Vec<String> = parameters.split(',').map(said).filter(|x| !x.is_empty()).collect();
        words.push(result.chars().take_while(|x| x.is_alphanumeric()).collect());
        found.insert(name.to_string(), words);
    }
    found
}

/// What the number of an order's bytes is called: turns, but where a turn has two of them.
fn length_of_order(call: &str) -> &'static str {
    if call == "wivakkol_deque_list_on" {
        "order_length"
    } else {
        "turns"
    }
}

fn as_pointers(call: &str, parameters: &[String]) -> Vec<String> {
    let pair = |pointer: &str, length: &str| vec![pointer.to_string(), format!("{length}: usize")];
    let as_pointer = |x: &String| match x.as_str() {
        "table: &[u8]" => pair("table: *const u8", "length"),
        "order: &[u8]" => pair("order: *const u8", length_of_order(call)),
        "filled: &mut [u8]" => pair("filled: *mut u8", "room"),
        "first: &[u8]" => pair("first: *const u8", "first_length"),
        "second: &[u8]" => pair("second: *const u8", "second_length"),
        "tables: &[u8]" => pair("tables: *const u8", "length"),
        "text: &[u8]" => pair("text: *const u8", "length"),
        "out: &mut [u8]" => pair("out: *mut u8", "room"),
        "lengths: &[u32]" => pair("lengths: *const u32", "parts"),
        _ => vec![x.clone()],
    };
    parameters.iter().flat_map(as_pointer).collect()
}

#[test]
fn calls_are_of_the_source() {
    let mut source = BTreeMap::new();
    for name in ["wivakkol_turn", "wivakkol", "wivakkol_tables", "wivakkol_marks", "wivakkol_deque_turn", "wivakkol_deques", "wivakkol_desk", "wivakkol_pace"] {
        for entry in fs::read_dir(format!("{HERE}/../../crates/{name}_c/src")).unwrap() {
            let text = fs::read_to_string(entry.unwrap().path()).unwrap();
            source.extend(functions(&text, "pub extern \"C\" fn "));
        }
    }
    let declared = functions(include_str!("../../src/raw.rs"), "pub fn ");
    assert_eq!(declared.len(), source.len());
    assert_eq!(declared.len(), 34);
    for (name, parameters) in declared {
        let exported = source.get(&name).unwrap_or_else(|| panic!("{name} is not exported"));
        assert_eq!(parameters, as_pointers(&name, exported), "{name}");
    }
}

/// What is handed to a call by its name: blocks of the memory, their parts, fields of the working memory, and locals.
fn handed(text: &str, call: &str) -> Vec<String> {
    let (_, rest) = text.split_once(&format!("raw::{call}(")).unwrap_or_else(|| panic!("{call} is not called"));
    let mut open = 1;
    let end = rest.find(|x| {
        open += i32::from(x == '(') - i32::from(x == ')');
        open == 0
    });
    let arguments = &rest[..end.expect("the call ends")];
    let name = |x: &str| match x.trim() {
        "table.as_ptr()" => "table".to_string(),
        "table.len()" => "length".to_string(),
        "order.as_ptr()" => "order".to_string(),
        "order.len()" => length_of_order(call).to_string(),
        "filled.as_mut_ptr()" => "filled".to_string(),
        "filled.len()" => "room".to_string(),
        "first.as_ptr()" => "first".to_string(),
        "first.len()" => "first_length".to_string(),
        "second.as_ptr()" => "second".to_string(),
        "second.len()" => "second_length".to_string(),
        "text.as_ptr()" => "text".to_string(),
        "text.len()" => "length".to_string(),
        "out.as_mut_ptr()" => "out".to_string(),
        "out.len()" => "room".to_string(),
        "tables.as_ptr()" => "tables".to_string(),
        "tables.len()" => "length".to_string(),
        "lengths.as_ptr()" => "lengths".to_string(),
        "lengths.len()" => "parts".to_string(),
        "&mut work.parents" | "&mut work.work.parents" => "seen".to_string(),
        other => {
            let place = other.trim_start_matches("&mut ").trim_start_matches('&').trim_end_matches("()");
            let place = place.replace("marks.set", "set").replace("marks.", "mark").replace("pace.numbers", "pace").replace("work.run.", "spare");
            place.trim_start_matches("self.").trim_start_matches("parts.").trim_start_matches("work.").to_string()
        }
    };
    arguments.split(',').map(name).filter(|x| !x.is_empty()).collect()
}

/// Every block, part and field is handed over where the call has a parameter of its name: neighbours of one type would change places unseen.
#[test]
fn memory_is_handed_by_name() {
    let calling = concat!(
        include_str!("../../src/lib.rs"),
        include_str!("../../src/limits.rs"),
        include_str!("../../src/memory.rs"),
        include_str!("../../src/tables.rs"),
        include_str!("../../src/marks.rs"),
        include_str!("../../src/deques.rs"),
        include_str!("../../src/desk.rs"),
        include_str!("../../src/pace.rs")
    );
    for (call, parameters) in functions(include_str!("../../src/raw.rs"), "pub fn ") {
        let mut names: Vec<&str> = parameters.iter().filter_map(|x| x.split_once(": ")).map(|(name, _)| name).collect();
        let given = handed(calling, &call);
        assert_eq!(given, names, "{call}");
        names.sort_unstable();
        names.dedup();
        assert_eq!(names.len(), given.len(), "{call}");
    }
}

/// The headers without their comments.
fn header() -> String {
    let read = |name: &str| fs::read_to_string(format!("{HERE}/../../include/{name}")).unwrap();
    let text = read("wivakkol.h") + &read("wivakkol_marks.h") + &read("wivakkol_pace.h");
    text.split("/*").map(|part| part.split_once("*/").map_or(part, |(_, after)| after)).collect()
}

/// The numbers that they name.
fn named(header: &str) -> BTreeMap<&str, &str> {
    header.lines().filter_map(|line| line.strip_prefix("#define WIVAKKOL_")?.trim().split_once(' ')).collect()
}

/// The fields of a struct of the headers, as Rust declares them, and those of the crate's.
fn both_fields(in_header: &str, in_crate: &str) -> (Vec<String>, Vec<String>) {
    let header = header();
    let named = named(&header);
    let (_, fields) = header.split_once(&format!("struct {in_header} {{")).unwrap();
    let (fields, _) = fields.split_once('}').unwrap();
    let in_rust = |field: &str| {
        let (kind, rest) = field.trim().split_once(' ').unwrap();
        match kind {
            "wivakkol_run" => format!("{rest}: Memory"),
            "wivakkol_work" => format!("{rest}: Work"),
            number => {
                let (name, size) = rest.trim_end_matches(']').split_once("[WIVAKKOL_").unwrap();
                let size: Vec<&str> = size.split(" * WIVAKKOL_").map(|factor| named[factor]).collect();
                format!("{name}: [{}; {}]", number.replace("uint", "u").trim_end_matches("_t"), size.join(" * "))
            }
        }
    };
    let wanted: Vec<String> = fields.split(';').filter(|x| !x.trim().is_empty()).map(in_rust).collect();
    let source = concat!(include_str!("../../src/memory.rs"), include_str!("../../src/marks.rs"), include_str!("../../src/pace.rs"));
    let (_, fields) = source.split_once(&format!("#[repr(C)]\npub struct {in_crate} {{")).unwrap();
    let (fields, _) = fields.split_once('}').unwrap();
    let declared = fields
        .lines()
        .map(|x| x.trim().trim_start_matches("pub(crate) ").trim_end_matches(',').to_string())
        .filter(|x| !x.is_empty() && !x.starts_with("//"))
        .collect();
    (wanted, declared)
}

#[test]
fn memory_is_of_the_header() {
    let structs = [
        ("wivakkol_run", "Memory", 4),
        ("wivakkol_work", "Work", 5),
        ("wivakkol_tables_work", "TablesWork", 6),
        ("wivakkol_limit_work", "LimitWork", 6),
        ("wivakkol_marks", "Marks", 5),
        ("wivakkol_marks_work", "MarksWork", 7),
        ("wivakkol_pace", "Pace", 1),
    ];
    for (in_header, in_crate, count) in structs {
        let (wanted, declared) = both_fields(in_header, in_crate);
        assert_eq!(declared, wanted);
        assert_eq!(declared.len(), count);
    }
}

/// Every part is at the place that the header names.
#[test]
fn parts_are_at_the_header_s_places() {
    let header = header();
    let named = named(&header);
    let (_, table) = include_str!("../../src/memory.rs").split_once("\nparts! {\n").unwrap();
    let (table, _) = table.split_once("\n}").unwrap();
    let parts: Vec<(&str, &str)> = table.lines().filter_map(|line| line.trim().trim_end_matches(',').split_once("] at ")).collect();
    for (part, place) in &parts {
        let (name, _) = part.split_once(": [").unwrap();
        let in_header = match name {
            "totals" => "HELD".to_string(),
            "settings" => "P".to_string(),
            "threads" => "WORKER_THREADS".to_string(),
            "heads" => "LEFTMOST".to_string(),
            other => other.to_uppercase(),
        };
        assert_eq!(named[format!("AT_{in_header}").as_str()], *place, "{name}");
    }
    assert_eq!(parts.len(), 14);
}

/// The bytes of a run put away are its blocks in their order.
#[test]
fn bytes_are_in_the_header_s_order() {
    let (wanted, _) = both_fields("wivakkol_run", "Memory");
    let (_, fields) = include_str!("../../src/memory.rs").split_once("macro_rules! each_block {").unwrap();
    let written: Vec<&str> = fields.lines().filter_map(|x| x.trim().strip_prefix("$on!($memory.")).filter_map(|x| x.split_once(')')).map(|(x, _)| x).collect();
    let names: Vec<String> = wanted.iter().map(|x| x.replace(": [", ", ").split(';').next().unwrap().to_string()).collect();
    assert_eq!(written, names);
}
