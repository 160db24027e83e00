//! The declarations, which nothing proves: every line of sys.rs says what include/maaliskur.h says,
//! and neither has one more.

use std::collections::BTreeMap;

const HEADER: &str = include_str!("../../include/maaliskur.h");
const RUST: &str = include_str!("../src/sys.rs");

/// Functions by name, each with the types and names of its arguments and its result, in C's words.
type Functions = BTreeMap<String, String>;

/// Replaces every run of white space by one space.
fn spaced(text: &str) -> String {
    text.split_whitespace().collect::<Vec<_>>().join(" ")
}

/// The header without its comments and without the lines for the preprocessor.
fn header_code() -> String {
    let mut code = String::new();
    let mut rest = HEADER;
    while let Some(start) = rest.find("/*") {
        code.push_str(&rest[..start]);
        rest = &rest[start + rest[start..].find("*/").expect("a comment ends") + 2..];
    }
    code.push_str(rest);
    code.lines().filter(|line| !line.trim_start().starts_with('#')).collect::<Vec<_>>().join("\n")
}

/// The functions that the header declares.
fn header_functions() -> Functions {
    let mut functions = Functions::new();
    for line in header_code().split(';').map(spaced).filter(|line| line.contains('(')) {
        let line = line.trim_start_matches("extern \"C\" { ").to_string();
        let (front, arguments) = line.split_once('(').unwrap();
        let (result, name) = front.rsplit_once(' ').unwrap();
        functions.insert(name.to_string(), format!("{result}({arguments}"));
    }
    functions
}

/// A Rust type in C's words, with the blank that parts it from a name.
fn in_c(rust: &str) -> &'static str {
    match rust {
        "State" => "struct maaliskur_state ",
        "Answer" => "struct maaliskur_answer ",
        "Part" => "struct maaliskur_part ",
        "*const u32" => "const uint32_t *",
        "*mut u32" => "uint32_t *",
        "usize" => "size_t ",
        "u32" => "uint32_t ",
        other => panic!("no type of the header: {other}"),
    }
}

/// The functions that sys.rs declares.
fn rust_functions() -> Functions {
    let mut functions = Functions::new();
    for line in RUST.lines().filter_map(|line| line.trim().strip_prefix("pub fn ")) {
        let (name, line) = line.split_once('(').unwrap();
        let (arguments, result) = line.split_once(") -> ").unwrap();
        let arguments: Vec<String> = arguments
            .split(", ")
            .map(|argument| argument.split_once(": ").unwrap())
            .map(|(name, kind)| format!("{}{}", in_c(kind), name))
            .collect();
        let result = in_c(result.trim_end_matches(';')).trim_end();
        functions.insert(name.to_string(), format!("{result}({})", arguments.join(", ")));
    }
    functions
}

#[test]
fn both_declare_the_same_functions() {
    let (rust, header) = (rust_functions(), header_functions());
    for (name, function) in &rust {
        assert_eq!(Some(function), header.get(name), "{name}");
    }
    assert!(rust.keys().eq(header.keys()), "the header declares more than sys.rs");
}

#[test]
fn there_are_twenty_three_functions() {
    assert_eq!(rust_functions().len(), 23);
}

/// The fields of a struct, as the header has them: `type name`, one each.
fn header_fields(name: &str) -> Vec<String> {
    let code = spaced(&header_code());
    let body = code.split_once(&format!("struct {name} {{ ")).expect("the header has the struct").1;
    let body = body.split_once(" }").unwrap().0;
    body.split(';').map(spaced).filter(|field| !field.is_empty()).collect()
}

#[test]
fn the_structs_have_the_fields_of_the_header() {
    assert_eq!(
        header_fields("maaliskur_state"),
        ["uint32_t used", "uint32_t heads[MAALISKUR_CLASSES]"]
    );
    assert_eq!(
        header_fields("maaliskur_answer"),
        ["uint32_t number", "uint32_t value", "struct maaliskur_state state"]
    );
    assert_eq!(header_fields("maaliskur_part"), ["size_t start", "size_t end"]);
}

/// The number that the header defines for a name.
fn defined(name: &str) -> u64 {
    let line = HEADER
        .lines()
        .find_map(|line| line.strip_prefix("#define ")?.strip_prefix(name)?.strip_prefix(' '));
    line.expect("the header defines the name").trim().trim_end_matches('u').parse().unwrap()
}

#[test]
fn the_limits_are_those_of_the_header() {
    assert_eq!(defined("MAALISKUR_POOL_LIMIT"), maaliskur::POOL_LIMIT as u64);
    assert_eq!(defined("MAALISKUR_TABLE_LIMIT"), maaliskur::TABLE_LIMIT as u64);
    assert_eq!(defined("MAALISKUR_LONGEST"), maaliskur::LONGEST as u64);
    assert_eq!(defined("MAALISKUR_CLASSES"), maaliskur::State::default().heads.len() as u64);
    assert_eq!(defined("MAALISKUR_FREE"), u64::from(maaliskur::FREE));
}

#[test]
fn the_numbers_are_those_of_the_header() {
    let names = [
        "OVER_LIMIT",
        "NO_SLOT",
        "BAD_HANDLE",
        "OUTSIDE",
        "CLASH",
        "BAD_HEAD",
        "NO_ROOM",
        "SHORT_MAP",
        "NOT_SOUND",
    ];
    let numbers = names.map(|name| defined(&format!("MAALISKUR_{name}")));
    assert_eq!(numbers, maaliskur::Refusal::ALL.map(|refusal| u64::from(refusal.number())));
}
