//! The numbers of `include/varmityep.h`, which C takes from there alone, are the papers', the
//! driver's and the proved source's; its functions are those that Rust declares.

use crate::names::*;
use peer::limits;
use peer::refusal::ORDER;
use std::iter::Peekable;
use std::mem::offset_of;

const HEADER: &str = include_str!("../../../include/varmityep.h");

/// What Rust declares of the same functions.
const NAMES: &str = include_str!("../../../rust/src/names.rs");

/// The proved source, by crate: what is printed, and what the writer and the watch stand in.
const PROVED: [(&str, &str); 6] = [
    ("outcome_lines", include_str!("../../../crates/outcome_lines/src/lib.rt")),
    ("tables", include_str!("../../../crates/tables/src/lib.rt")),
    ("building", include_str!("../../../crates/building/src/lib.rt")),
    ("writing", include_str!("../../../crates/writing/src/lib.rt")),
    ("watch_cells", include_str!("../../../crates/watch_cells/src/lib.rt")),
    ("watches", include_str!("../../../crates/watches/src/lib.rt")),
];

/// What follows these words.
fn behind<'a>(source: &'a str, words: &str) -> &'a str {
    source.split_once(words).unwrap_or_else(|| panic!("no {words}")).1
}

/// What follows these words, up to the first byte that stands in no number.
fn number(source: &str, words: &str) -> u64 {
    let rest = behind(source, words);
    let end = rest.find(|letter: char| !letter.is_ascii_digit() && letter != '_');
    read(&rest[..end.unwrap_or(rest.len())])
}

/// Digits, perhaps parted by `_`.
fn read(digits: &str) -> u64 {
    digits.replace('_', "").parse().expect("a number")
}

/// What an expression of numbers, names, `+`, `*` and parentheses comes to.
fn value(expression: &str, named: &dyn Fn(&str) -> u64) -> u64 {
    let mut spaced = expression.to_string();
    for sign in ["(", ")", "+", "*"] {
        spaced = spaced.replace(sign, &format!(" {sign} "));
    }
    let mut words = spaced.split_whitespace().peekable();
    let value = sum(&mut words, named);
    assert_eq!(words.next(), None, "{expression}");
    value
}

fn sum<'a>(
    words: &mut Peekable<impl Iterator<Item = &'a str>>,
    named: &dyn Fn(&str) -> u64,
) -> u64 {
    let mut total = product(words, named);
    while words.next_if_eq(&"+").is_some() {
        total += product(words, named);
    }
    total
}

fn product<'a>(
    words: &mut Peekable<impl Iterator<Item = &'a str>>,
    named: &dyn Fn(&str) -> u64,
) -> u64 {
    let mut total = factor(words, named);
    while words.next_if_eq(&"*").is_some() {
        total *= factor(words, named);
    }
    total
}

fn factor<'a>(
    words: &mut Peekable<impl Iterator<Item = &'a str>>,
    named: &dyn Fn(&str) -> u64,
) -> u64 {
    match words.next().expect("a number, a name or a parenthesis") {
        "(" => {
            let inner = sum(words, named);
            assert_eq!(words.next(), Some(")"));
            inner
        }
        digits if digits.starts_with(|letter: char| letter.is_ascii_digit()) => read(digits),
        name => named(name),
    }
}

/// What a name of the header stands for.
fn defined(name: &str) -> u64 {
    let line = behind(HEADER, &format!("#define {name} ")).lines().next().expect("a line");
    let expression = line.split("/*").next().expect("an expression");
    // A number's width is no part of it.
    value(&expression.replace("UINT64_C", "").replace("INT64_C", ""), &defined)
}

/// What a constant of the proved source comes to, by crate and name.
fn proved(path: &str) -> u64 {
    let (own, name) = path.split_once("::").expect("a crate and a name");
    let source = proved_source(own).unwrap_or_else(|| panic!("no crate {own}"));
    let declared = behind(source, &format!("const {name}: "));
    let (expression, _) = behind(declared, "= ").split_once(';').expect("its end");
    value(expression, &|other| proved(&path_of(other, own, source)))
}

fn proved_source(own: &str) -> Option<&'static str> {
    PROVED.into_iter().find(|(name, _)| *name == own).map(|(_, source)| source)
}

/// Where a name that a crate's source uses is declared: in the crate that stands before it, in the one
/// that it is taken from, or there.
fn path_of(name: &str, own: &str, source: &str) -> String {
    let (before, last) = name.rsplit_once("::").unwrap_or(("", name));
    let taken = || {
        source.split("\nuse ").skip(1).find_map(|rest| {
            let (from, names) = rest.split_once(';')?.0.rsplit_once("::")?;
            let mut names = names.trim_matches(['{', '}']).split(',');
            names.any(|name| name.trim() == last).then_some(from)
        })
    };
    let there = proved_source(before).map(|_| before).or_else(taken).unwrap_or(own);
    format!("{there}::{last}")
}

#[test]
fn expressions_come_to_their_values() {
    let named = |name: &str| if name == "a::SIX" { 6 } else { 1_000 };
    for (expression, wanted) in [
        ("64", 64),
        ("(2 * a::SIX)", 12),
        ("5 + 2*a::SIX + OTHER", 1_017),
        ("(5 + 2) * (1_0 + 1)", 77),
    ] {
        assert_eq!(value(expression, &named), wanted, "{expression}");
    }
}

#[test]
fn lengths_are_those_of_the_proved_source() {
    assert_eq!(LINES as u64, proved("outcome_lines::LINES"));
    assert_eq!(MOST_NODES as u64, proved("tables::NODES"));
    assert_eq!(NODE_NUMBERS as u64, proved("building::WIDTH"));
    assert_eq!(NODES as u64, proved("building::CELLS"));
    assert_eq!(REQUIREMENT_BYTES as u64, proved("writing::LONGEST_TEXT"));
    assert_eq!(WATCH_NUMBERS as u64, proved("watches::NUMBERS"));
    assert_eq!(WATCH_CELLS as u64, proved("watches::CELLS"));
}

#[test]
fn lengths_and_limits_are_those_of_the_header() {
    let lengths = [
        ("NODES", NODES),
        ("RANGES", RANGES),
        ("ENDS", ENDS),
        ("NUMBERS", NUMBERS),
        ("PLACES", PLACES),
        ("SCALES", SCALES),
        ("COUNTS", COUNTS),
        ("RESULT", RESULT),
        ("LINES", LINES),
        ("NODE_BYTES", LONGEST_SIGN.len()),
        ("REQUIREMENT_BYTES", REQUIREMENT_BYTES),
        ("WATCH_NUMBERS", WATCH_NUMBERS),
        ("WATCH_CELLS", WATCH_CELLS),
        ("MOST_BYTES", limits::MOST_BYTES),
        ("MOST_ROWS", limits::MOST_SAMPLES as usize),
        ("MOST_CHANNELS", MOST_CHANNELS),
        ("MOST_SCALE", limits::MOST_SCALE as usize),
        ("MOST_REQUIREMENTS", MOST_REQUIREMENTS),
        ("MOST_NODES", MOST_NODES),
        ("PREDICATES", PREDICATES),
        ("NODE_NUMBERS", NODE_NUMBERS),
        ("ANSWER_ROWS", limits::PROGRAM_ROWS),
        ("ANSWER_CELLS", limits::PROGRAM_CELLS),
        ("NO_END", limits::NO_END as usize),
        ("TOP", limits::TOP as usize),
    ];
    for (name, length) in lengths {
        assert_eq!(defined(&format!("VARMITYEP_{name}")), length as u64, "{name}");
    }
    // The other line of that kind guards the file.
    assert_eq!(HEADER.matches("#define VARMITYEP_").count(), lengths.len() + 1);
}

#[test]
fn limits_are_the_papers() {
    assert_eq!(MOST_NODES, limits::MOST_NODES);
    assert_eq!(PREDICATES, limits::PREDICATES);
    assert_eq!(MOST_CHANNELS, limits::MOST_CHANNELS as usize);
    assert_eq!(MOST_REQUIREMENTS, limits::MOST_REQUIREMENTS);
}

#[test]
fn refusals_stand_in_the_order_in_which_they_count() {
    let (_, list) = HEADER.split_once("VARMITYEP_ACCEPTED = 0,").expect("the list");
    let (list, _) = list.split_once('}').expect("its end");
    let numbers: Vec<u64> = list.split(" = ").skip(1).map(|rest| number(rest, "")).collect();
    assert_eq!(numbers, ORDER);
}

#[test]
fn kinds_are_the_papers() {
    use peer::table::kind;
    for (name, number) in [
        ("TRUE", kind::TRUE),
        ("PREDICATE", kind::PREDICATE),
        ("NOT", kind::NOT),
        ("AND", kind::AND),
        ("OR", kind::OR),
        ("UNTIL", kind::UNTIL),
        ("RELEASE", kind::RELEASE),
        ("EVENTUALLY", kind::EVENTUALLY),
        ("ALWAYS", kind::ALWAYS),
    ] {
        assert_eq!(self::number(HEADER, &format!("VARMITYEP_KIND_{name} = ")), number, "{name}");
    }
    assert_eq!(HEADER.matches("VARMITYEP_KIND_").count(), 9);
}

/// The longest sign and a pair: a leaf, every other operator and a window with marks have fewer bytes.
const LONGEST_SIGN: &str = "U[1000000000,1000000000]()";

#[test]
fn what_writing_hands_back_is_laid_out_as_in_c() {
    let (_, list) = HEADER.split_once("struct varmityep_written {").expect("the struct");
    let (list, _) = list.split_once('}').expect("its end");
    let fields: Vec<&str> = list.lines().filter_map(|line| line.split(';').next()).collect();
    assert_eq!(
        fields.join("").split_whitespace().collect::<Vec<_>>(),
        ["uint64_t", "number", "size_t", "length"]
    );
    assert_eq!((offset_of!(Written, number), offset_of!(Written, length)), (0, 8));
}

#[test]
fn a_place_for_a_watch_has_its_numbers_and_cells() {
    let (_, list) = HEADER.split_once("typedef struct varmityep_watch {").expect("the struct");
    let (list, name) = list.split_once("} ").expect("its end");
    assert_eq!(
        list.split_whitespace().collect::<Vec<_>>(),
        [
            "uint64_t", "numbers[VARMITYEP_WATCH_NUMBERS];", "int64_t",
            "cells[VARMITYEP_WATCH_CELLS];"
        ]
    );
    assert!(name.starts_with("varmityep_watch;"));
}

/// Each function's name and those of its parameters, by name: what stands in parentheses right behind
/// a name of the library.
fn functions(
    source: &str,
    before: &str,
    parameter: impl Fn(&str) -> String,
) -> Vec<(String, Vec<String>)> {
    let declared = source.split(before).skip(1).filter_map(|rest| {
        let (name, rest) = rest.split_once('(')?;
        let (list, _) = rest.split_once(')')?;
        let is_name = name.chars().all(|letter| letter.is_ascii_lowercase() || letter == '_');
        let words = list.split(',').map(str::trim).filter(|words| !words.is_empty());
        is_name.then(|| (name.to_string(), words.map(&parameter).collect()))
    });
    let mut declared: Vec<_> = declared.collect();
    declared.sort();
    declared
}

#[test]
fn functions_have_the_parameters_that_rust_declares() {
    // In C a parameter's name is the last word, in Rust the one before the colon.
    let in_c = |words: &str| words.rsplit([' ', '*']).next().unwrap_or_default().to_string();
    let in_rust = |words: &str| words.split(':').next().unwrap_or_default().to_string();
    let declared = functions(HEADER, " varmityep_", in_c);
    assert_eq!(declared, functions(NAMES, "fn varmityep_", in_rust));
    let names: Vec<&str> = declared.iter().map(|(name, _)| name.as_str()).collect();
    assert_eq!(
        names,
        [
            "answer", "distance", "margin", "requirement", "rows", "sheet", "verdict",
            "watch_fresh", "watch_margin", "watch_row", "write",
        ]
    );
    let last = &declared[names.len() - 1];
    assert_eq!(last.1, ["nodes", "nodes_len", "count", "text", "text_len"]);
}
