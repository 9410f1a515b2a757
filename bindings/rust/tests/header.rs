//! The table of src/lent.rs, the rooms and the texts of refusals are those of the header that came with the library.

use std::collections::BTreeMap;
use std::fs;

const LENT: &str = include_str!("../src/lent.rs");

fn squeezed(text: &str) -> String {
    text.split_whitespace().collect::<Vec<_>>().join(" ")
}

/// The text without its comments.
fn bare(header: &str) -> String {
    let mut out = String::new();
    let mut rest = header;
    while let Some(start) = rest.find("/*") {
        out += &rest[..start];
        rest = &rest[start + rest[start..].find("*/").unwrap() + 2..];
    }
    out + rest
}

/// A parameter of C, and whether it is the length of what comes before it, as a parameter of src/lent.rs.
fn parameter(text: &str) -> (String, bool) {
    let text = squeezed(text);
    let (kind, name) = text.rsplit_once(' ').unwrap();
    let (constant, kind) = kind.strip_prefix("const ").map_or((false, kind), |kind| (true, kind));
    let item = match kind {
        "uint8_t" => "u8",
        "uint16_t" => "u16",
        "uint32_t" => "u32",
        "int32_t" => "i32",
        "size_t" => "usize",
        "struct pw_joined" => "Joined",
        other => panic!("{other} in {text}"),
    };
    match name.strip_prefix('*') {
        Some(name) => (format!("{name}: {}{item}", if constant { "&" } else { "&mut " }), false),
        None => (format!("{name}: {item}"), item == "usize" && (name == "len" || name.ends_with("_len"))),
    }
}

/// The calls of the header, each with its parameters as src/lent.rs would have them.
fn declared() -> BTreeMap<String, String> {
    let header = bare(&fs::read_to_string(env!("PINAREWHEMI_HEADER")).unwrap());
    let mut calls = BTreeMap::new();
    for text in header.split("uint32_t pw_").skip(1) {
        let (name, rest) = text.split_once('(').unwrap();
        let mut parameters: Vec<String> = Vec::new();
        for (text, length) in rest.split_once(')').unwrap().0.split(',').map(parameter) {
            if length {
                let slice = parameters.pop().unwrap();
                let (head, item) = slice.rsplit_once(['&', ' ']).unwrap();
                let mark = &slice[head.len()..head.len() + 1];
                parameters.push(format!("{head}{mark}[{item}]"));
            } else {
                parameters.push(text);
            }
        }
        calls.insert(format!("pw_{name}"), parameters.join(", "));
    }
    calls
}

/// The lines of the table.
fn tabled() -> BTreeMap<String, String> {
    let table = LENT.split("// The table of the calls.").nth(1).unwrap().split("// The end of the table.").next().unwrap();
    let mut calls = BTreeMap::new();
    for line in table.split("call!(").skip(1) {
        let line = squeezed(line);
        let line = match line.strip_prefix("#[cfg(") {
            Some(rest) => rest.split_once(")] ").unwrap().1.to_string(),
            None => line,
        };
        let (names, parameters) = line.split_once('(').unwrap();
        let (symbol, name) = names.split_once(' ').unwrap();
        assert_eq!(symbol.strip_prefix("pw_"), Some(name));
        let parameters = parameters.split("));").next().unwrap();
        calls.insert(symbol.to_string(), parameters.trim().trim_end_matches(',').to_string());
    }
    calls
}

#[test]
fn the_table_is_the_headers() {
    let (declared, tabled) = (declared(), tabled());
    assert!(declared.len() >= 14 && tabled.len() >= declared.len());
    for (name, parameters) in declared {
        assert_eq!(tabled.get(&name), Some(&parameters), "{name}");
    }
}

#[test]
fn the_rooms_are_the_headers() {
    use pinarewhemi::room::*;
    let rooms = [
        ("PW_TABLE_ENTRIES", TABLE_ENTRIES),
        ("PW_LIST_NUMBERS", LIST_NUMBERS),
        ("PW_DIVIDED_NUMBERS", DIVIDED_NUMBERS),
        ("PW_CORNER_NUMBERS", CORNER_NUMBERS),
        ("PW_RING_LENGTHS", RING_LENGTHS),
        ("PW_HEADER_BYTES", HEADER_BYTES),
        ("PW_OUTLINE_BYTES", OUTLINE_BYTES),
        ("PW_JOB_BYTES", JOB_BYTES),
        ("PW_CUTS_MOST", CUTS_MOST),
        ("PW_EDGE_NUMBERS", EDGE_NUMBERS),
        ("PW_INDEX_ENTRIES", INDEX_ENTRIES),
        ("PW_CIF_BYTES", CIF_BYTES),
    ];
    let rooms = BTreeMap::from(rooms.map(|(name, room)| (name.to_string(), room)));
    assert_eq!(constants("pw_room"), rooms);
}

/// The names and numbers of an enum of the header.
fn constants(name: &str) -> BTreeMap<String, usize> {
    let header = bare(&fs::read_to_string(env!("PINAREWHEMI_HEADER")).unwrap());
    let rest = header.split_once(&format!("enum {name} {{")).unwrap().1;
    let mut constants = BTreeMap::new();
    for line in rest.split_once('}').unwrap().0.split(',').map(squeezed).filter(|line| !line.is_empty()) {
        let (name, number) = line.split_once(" = ").unwrap();
        constants.insert(name.to_string(), number.parse().unwrap());
    }
    constants
}

#[test]
fn the_texts_are_the_headers() {
    let header = bare(&fs::read_to_string(env!("PINAREWHEMI_HEADER")).unwrap());
    let mut numbers = constants("pw_refusal");
    assert_eq!(numbers.remove("PW_OK"), Some(0));
    let mut held = 0;
    for case in header.split("case ").skip(1) {
        let (name, rest) = case.split_once(": return \"").unwrap();
        let number = numbers.remove(name).unwrap() as u32;
        let refused = pinarewhemi::Refused { number, offset: None, shots: 0 };
        assert_eq!(Some(refused.text()), rest.split('"').next(), "{name}");
        held += 1;
    }
    assert_eq!((held, numbers.len()), (23, 0));
}
