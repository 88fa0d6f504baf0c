//! A search of the library's source: what fills pieces, and what puts their bytes into the packet, has no array of its own and is lent none,
//! and so has all that it calls. Text goes straight from the packet to the sheet, and from the sheet into the packet that is spelt.
use std::collections::{BTreeMap, BTreeSet};
use std::fs;
use testing::root;

/// A function's code: its parameters and its body. Comments, contracts and imports are left out.
type Functions = BTreeMap<String, String>;

/// The items of the crates: functions, and tables, which are constants and statics that are arrays.
struct Source {
    functions: Functions,
    tables: BTreeSet<String>,
}

/// Code without comments.
fn code(text: &str) -> String {
    text.lines().map(|line| line.split("//").next().unwrap_or("")).collect::<Vec<_>>().join("\n")
}

/// The name behind a keyword at the begin of a line.
fn named(line: &str, keyword: &str) -> Option<String> {
    let item = line.trim_start_matches("pub ").trim_start_matches("extern \"C\" ");
    Some(item.strip_prefix(keyword)?.chars().take_while(|sign| sign.is_alphanumeric() || *sign == '_').collect())
}

/// The items of every library crate. An item of `rt fmt`'s layout begins at the margin and ends with a line that is `}` or ends in `;`.
fn source() -> Source {
    let mut found = Source { functions: BTreeMap::new(), tables: BTreeSet::new() };
    for folder in fs::read_dir(root().join("crates")).unwrap() {
        let folder = folder.unwrap();
        let name = folder.file_name().into_string().unwrap();
        let Ok(text) = fs::read_to_string(folder.path().join("src/lib.rt")) else { continue };
        let text = code(&text);
        let mut lines = text.lines();
        while let Some(line) = lines.next() {
            if let Some(constant) = named(line, "const ").or_else(|| named(line, "static ")) {
                if has_array(line.split(':').nth(1).unwrap_or("")) {
                    found.tables.insert(constant);
                }
            } else if let Some(function) = named(line, "fn ") {
                let body = lines.by_ref().take_while(|line| *line != "}").filter(|line| !is_contract(line));
                let whole = [line].into_iter().chain(body).collect::<Vec<_>>().join("\n");
                found.functions.insert(format!("{name}::{function}"), whole);
            }
        }
    }
    found
}

fn is_contract(line: &str) -> bool {
    line.starts_with("    requires ") || line.starts_with("    ensures ")
}

/// Whether code has an array: a bracket that is neither an index nor the type of a slice, or a string of bytes.
fn has_array(code: &str) -> bool {
    let is_word = |sign: char| sign.is_alphanumeric() || sign == '_';
    code.contains("b\"")
        || code.match_indices('[').any(|(at, _)| {
            let before = code[..at].trim_end();
            let word = before.rsplit(|sign| !is_word(sign)).next().unwrap_or("");
            let is_index = before.ends_with([')', ']']) || !matches!(word, "" | "mut" | "return" | "in" | "else");
            let inside = code[at + 1..].split(']').next().unwrap_or("");
            !is_index && !matches!(inside, "u8" | "u16" | "u32" | "u64" | "usize")
        })
}

/// Code without the constants and types that calls of generic functions name, as in `copy::<8>(`.
fn without_generics(code: &str) -> String {
    let mut parts = code.split("::<");
    let first = parts.next().unwrap_or("").to_string();
    parts.fold(first, |whole, part| whole + part.split_once('>').map_or(part, |(_, behind)| behind))
}

/// The functions that code calls, by the crate and the name.
fn calls(source: &Source, of: &str, code: &str) -> Vec<String> {
    let code = &without_generics(code);
    let home = of.split("::").next().unwrap();
    let is_path = |sign: char| sign.is_alphanumeric() || sign == '_' || sign == ':';
    let called = code.match_indices('(').map(|(at, _)| code[..at].rsplit(|sign| !is_path(sign)).next().unwrap_or(""));
    let whole = called.map(|name| if name.contains("::") { name.to_string() } else { format!("{home}::{name}") });
    whole.filter(|name| source.functions.contains_key(name)).collect()
}

/// All functions that one calls, and those that they call, with itself.
fn reached(source: &Source, start: &str) -> BTreeSet<String> {
    let mut reached = BTreeSet::new();
    let mut left = vec![start.to_string()];
    while let Some(name) = left.pop() {
        let code = source.functions.get(&name).unwrap_or_else(|| panic!("no function {name}"));
        if reached.insert(name.clone()) {
            left.extend(calls(source, &name, code));
        }
    }
    reached
}

/// The functions on the way from one to another, with both.
fn between(source: &Source, start: &str, end: &str) -> BTreeSet<String> {
    reached(source, start).into_iter().filter(|name| reached(source, name).contains(end)).collect()
}

/// Those that have an array of their own, or are lent one, or name a table.
fn with_arrays(source: &Source, functions: &BTreeSet<String>) -> Vec<String> {
    let names_table = |code: &str| source.tables.iter().any(|table| code.contains(table.as_str()));
    let has_one = |name: &&String| has_array(&source.functions[*name]) || names_table(&source.functions[*name]);
    functions.iter().filter(has_one).cloned().collect()
}

/// No array is on the way from one function to another, nor in anything that the other calls; some of the functions on it are named.
fn assert_straight(source: &Source, start: &str, end: &str, some: &[&str]) {
    let mut way = between(source, start, end);
    way.extend(reached(source, end));
    assert!(some.iter().all(|name| way.contains(*name)), "{way:?}");
    assert_eq!(with_arrays(source, &way), Vec::<String>::new(), "from {start} to {end}");
}

/// From the packet to the sheet: from where the reader has looked at every row, through the fillers of a text's and of an opaque segment's
/// records, to those of pieces.
#[test]
fn pieces_are_filled_with_no_array_between() {
    let source = source();
    let some = [
        "reader::lay_out",
        "records::text_records",
        "records::opaque_records",
        "records::full_piece",
        "records::last_piece",
        "copies::copy32",
    ];
    assert_straight(&source, "reader::set_out", "records::piece_records", &some);
}

/// From the sheet to the packet: from the walk that spells it to what puts the bytes of pieces.
#[test]
fn pieces_are_spelt_with_no_array_between() {
    let source = source();
    assert_straight(
        &source,
        "spelling::spell",
        "spelling::put_full_pieces",
        &["spelling::put_next", "spelling::put_row", "copies::copy32"],
    );
    assert_straight(&source, "spelling::spell", "spelling::put_piece", &["spelling::put_record", "copies::copy_each"]);
}

/// The search finds the arrays that there are.
#[test]
fn arrays_are_found() {
    let source = source();
    let found = with_arrays(&source, &between(&source, "writer::write", "records::piece_records"));
    let arrays = ["writer::write_in", "readback::is_sheet"];
    assert!(arrays.iter().all(|name| found.contains(&name.to_string())), "{found:?}");
    assert_eq!(with_arrays(&source, &reached(&source, "sheet_walk::record_at")), ["sheet_walk::body_length"]);
    for array in ["let a = [0u8; 32];", "f(&[1, 2]);", "fn f(a: &mut [u8; 4])", "let a = b\"text\";", "return [x];", "[[0u8; 2]; 3]"] {
        assert!(has_array(array), "{array}");
    }
    for other in ["o[q] = s[p];", "f(&s[a..], &mut o[b..])", "fn f(s: &[u8], o: &mut [u8])", "x[0][1]", "f(s)[i]"] {
        assert!(!has_array(other), "{other}");
    }
}
