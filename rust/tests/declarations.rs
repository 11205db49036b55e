//! What src/raw.rs declares is what include/postlapse.h declares, and the refusals are those of its table.
use postlapse::Refusal;
use std::collections::BTreeMap;

const HEADER: &str = include_str!("../../include/postlapse.h");
const RAW: &str = include_str!("../src/raw.rs");
const REFUSALS: &str = include_str!("../src/refusal.rs");

/// A text without its comments between /* and */, its white space single.
fn plain(text: &str) -> String {
    let mut parts = text.split("/*");
    let mut plain = parts.next().unwrap_or_default().to_string();
    for part in parts {
        plain.push_str(part.split_once("*/").map_or("", |(_, rest)| rest));
    }
    plain.split_whitespace().collect::<Vec<_>>().join(" ")
}

/// A type of C as Rust writes it; postlapse_header_answer is HeaderAnswer.
fn in_rust(c: &str) -> String {
    let named = match c.trim_start_matches("const ").trim_end_matches([' ', '*']) {
        "uint8_t" => "u8".into(),
        "uint16_t" => "u16".into(),
        "uint32_t" => "u32".into(),
        "int16_t" => "i16".into(),
        "int32_t" => "i32".into(),
        "size_t" => "usize".into(),
        other => {
            let words = other.strip_prefix("postlapse_").unwrap_or_else(|| panic!("the type {c}")).split('_');
            words.map(|word| word[..1].to_uppercase() + &word[1..]).collect::<String>()
        }
    };
    match (c.contains('*'), c.starts_with("const")) {
        (true, true) => format!("*const {named}"),
        (true, false) => format!("*mut {named}"),
        (false, _) => named,
    }
}

/// `const int16_t *pcm` as `pcm: *const i16`.
fn declared(c: &str) -> String {
    let name = c.rsplit([' ', '*']).next().unwrap();
    format!("{name}: {}", in_rust(c.trim_end_matches(name).trim()))
}

#[test]
fn the_calls_are_those_of_the_header() {
    let header = plain(HEADER);
    let mut expected = BTreeMap::new();
    for (at, _) in header.match_indices("postlapse_") {
        let Some((name, rest)) = header[at..].split_once('(') else { continue };
        let given = header[..at].rsplit([';', '}', '{', '"']).next().unwrap().trim();
        // A prototype has a type before its name; postlapse_words stands in a C file beside the archive.
        if name.contains([' ', ';', ',', ')', '=', '}']) || given.is_empty() || name == "postlapse_words" {
            continue;
        }
        let given = given.rsplit(' ').next().unwrap();
        let parameters = rest.split_once(')').unwrap().0;
        let parameters: Vec<_> = parameters.split(", ").filter(|p| *p != "void").map(declared).collect();
        expected.insert(name.to_string(), format!("pub fn {name}({}) -> {};", parameters.join(", "), in_rust(given)));
    }
    let raw = plain(RAW);
    let block = raw.split_once("unsafe extern \"C\" {").unwrap().1.split_once('}').unwrap().0;
    let mut found = BTreeMap::new();
    for call in block.split_inclusive(';').map(str::trim).filter(|call| !call.is_empty()) {
        let name = call.trim_start_matches("pub fn ").split_once('(').unwrap().0;
        found.insert(name.to_string(), call.replace("( ", "(").replace(", )", ")"));
    }
    assert_eq!(expected.len(), 13);
    assert_eq!(found, expected);
}

#[test]
fn the_structs_are_those_of_the_header() {
    let header = plain(HEADER);
    let raw = plain(RAW);
    let mut structs = 0;
    for part in header.split("typedef struct {").skip(1) {
        let (fields, rest) = part.split_once('}').unwrap();
        let name = in_rust(rest.split_once(';').unwrap().0.trim());
        let fields: Vec<_> = fields.split(';').map(str::trim).filter(|f| !f.is_empty()).map(declared).collect();
        let expected = format!("#[repr(C)] pub struct {name} {{ pub {}, }}", fields.join(", pub "));
        assert!(raw.contains(&expected), "{expected}");
        structs += 1;
    }
    assert_eq!(structs, 5);
    assert_eq!(structs, raw.matches("#[repr(C)]").count());
}

/// The rows of the table at the head of the header: numbers, and how many numbers each returns.
fn rows() -> BTreeMap<usize, usize> {
    let row = |line: &str| {
        let (number, rest) = line.strip_prefix(" *")?.trim_start().split_once("  ")?;
        Some((number.parse().ok()?, rest.matches("first: ").count() + rest.matches("second: ").count()))
    };
    HEADER.lines().filter_map(row).collect()
}

/// The numbers and names of src/refusal.rs.
fn named() -> Vec<(usize, &'static str)> {
    let row = |line: &'static str| {
        let (number, rest) = line.trim_start().split_once(' ')?;
        Some((number.parse().ok()?, rest.split([' ', '(']).next()?))
    };
    REFUSALS.lines().filter(|line| line.starts_with("    ")).filter_map(row).collect()
}

#[test]
fn the_refusals_are_those_of_the_table() {
    let mut rows = rows();
    rows.remove(&0);
    assert!(rows.len() > 30);
    assert_eq!(
        rows.keys().copied().collect::<Vec<_>>(),
        named().iter().map(|(number, _)| *number).collect::<Vec<_>>()
    );
    for (number, name) in named() {
        assert!(REFUSALS.contains(&format!("    {number} {name}")));
    }
    let returned = [
        (Refusal::InvalidChannels(3), 1, vec![3]),
        (Refusal::UnsupportedVersion(4), 7, vec![4]),
        (Refusal::InvalidVariant(3), 8, vec![3]),
        (Refusal::InvalidReservedByte(1), 9, vec![1]),
        (Refusal::InvalidFileLength { expected: 50, actual: 49 }, 10, vec![50, 49]),
        (Refusal::InvalidStepIndex(89), 11, vec![89]),
        (Refusal::OutputTooShort(50), 13, vec![50]),
        (Refusal::NonZeroPadding, 12, vec![]),
    ];
    for (refusal, number, numbers) in returned {
        assert_eq!((refusal.number(), refusal.numbers().len()), (number, rows[&number]));
        assert_eq!(refusal.numbers(), numbers);
        for value in numbers {
            assert!(refusal.to_string().contains(&value.to_string()), "{refusal}");
        }
    }
    // The cases of the proved table have the same names.
    let table = include_str!("../../crates/outcome/specs/Table.antt");
    for (number, name) in named() {
        let case = table.lines().any(|line| {
            line.starts_with("number_of ") && line.contains(name) && line.ends_with(&format!(" = {number}"))
        });
        assert!(case, "{number} {name}");
    }
}
