//! The header for C and this crate name the same numbers, answers, limits and lengths.

use balduqen::doors::{Answer, Price, Saving};
use balduqen::*;
use std::any::type_name_of_val;
use std::mem::{offset_of, size_of};

const HEADER: &str = include_str!("../../include/balduqen.h");

/// The numbers of the header's enum: `BALDUQEN_HEAVY_NODE = 7` as `HeavyNode` and 7.
fn causes() -> Vec<(String, u32)> {
    let (_, rest) = HEADER.split_once("\nenum {\n").expect("an enum");
    let (body, _) = rest.split_once("};").expect("its end");
    let cause = |line: &str| {
        let (name, number) = line.trim().trim_end_matches(',').split_once(" = ")?;
        let name = name.strip_prefix("BALDUQEN_")?;
        let name = name.split('_').map(|word| {
            let (first, rest) = word.split_at(1);
            first.to_string() + &rest.to_lowercase()
        });
        Some((name.collect(), number.parse().ok()?))
    };
    let causes = body.lines().map(|line| cause(line).expect(line));
    causes.collect()
}

/// What the header defines a name as.
fn defined(name: &str) -> &'static str {
    let define = format!("#define {name} ");
    let line = HEADER.lines().find(|line| line.starts_with(&define));
    &line.expect(name)[define.len()..]
}

#[test]
fn the_list_is_the_headers() {
    let accepted = ("Accepted".to_string(), 0);
    let named = |cause: &Cause| (format!("{cause:?}"), cause.number());
    let ours = Cause::ALL.iter().map(named);
    let all: Vec<(String, u32)> = [accepted].into_iter().chain(ours).collect();
    assert_eq!(all, causes());
    for number in 0..100 {
        let cause = Cause::of(number);
        assert_eq!(cause.is_some(), (1..=15).contains(&number) && number != 5);
        assert!(cause.is_none_or(|cause| cause.number() == number));
    }
}

/// The words of an answer in the header, in their order: `uint32_t number, place;` tells `number`
/// and `place`, each as a `u32`.
fn words(answer: &str) -> Vec<(&'static str, &'static str)> {
    let (before, _) = HEADER.split_once(&format!("}} {answer};")).expect(answer);
    let (_, body) = before.rsplit_once("typedef struct {").expect("a struct");
    let declared = body
        .split(';')
        .filter_map(|line| line.trim().split_once(' '));
    let words = declared.flat_map(|(word, names)| {
        let word = match word {
            "uint32_t" => "u32",
            "int32_t" => "i32",
            _ => panic!("{answer} has {word}"),
        };
        names.split(", ").map(move |name| (name, word))
    });
    words.collect()
}

/// An answer of this crate has the header's words, at the same offsets, and no more.
macro_rules! same_words {
    ($answer:ty, $of_header:expr, $($name:ident)*) => {
        let ours = <$answer>::default();
        let names = [$((stringify!($name), type_name_of_val(&ours.$name))),*];
        assert_eq!(names[..], words($of_header));
        let offsets = [$(offset_of!($answer, $name)),*];
        assert!(offsets.into_iter().eq((0..names.len()).map(|index| 4 * index)));
        assert_eq!(size_of::<$answer>(), 4 * names.len());
    };
}

#[test]
fn answers_are_the_headers() {
    same_words!(Answer, "balduqen_answer", number place pages root);
    same_words!(Price, "balduqen_price_answer", number place pages root cents);
    same_words!(Saving, "balduqen_saving_answer", number place pages root saving);
}

#[test]
fn limits_and_lengths_are_the_headers() {
    assert_eq!(defined("BALDUQEN_MAX_NODES"), MAX_NODES.to_string());
    assert_eq!(defined("BALDUQEN_MAX_LIMIT"), MAX_LIMIT.to_string());
    assert_eq!(defined("BALDUQEN_ARCHIVE_NODES"), ARCHIVE_NODES.to_string());
    assert_eq!(defined("BALDUQEN_STACK"), STACK.to_string());
    let same = [
        ("TABLE_LENGTH(nodes)", "(4 + 8 * (size_t)(nodes))"),
        (
            "SCRATCH_LENGTH(nodes, limit)",
            "(4 * (size_t)(nodes) * ((size_t)(limit) + 3))",
        ),
        (
            "ARCHIVE_LENGTH(pages, nodes)",
            "(6 + 8 * (size_t)(pages) + 8 * (size_t)(nodes))",
        ),
        (
            "ARCHIVE2_LENGTH(pages, nodes)",
            "(8 + 10 * (size_t)(pages) + 8 * (size_t)(nodes))",
        ),
        (
            "SHEETS_LENGTH(pages)",
            "(4860 * (((size_t)(pages) + 57) / 58))",
        ),
    ];
    for (name, length) in same {
        assert_eq!(defined(&format!("BALDUQEN_{name}")), length);
    }
    assert_eq!(table_length(7), 4 + 8 * 7);
    assert_eq!(scratch_length(7, 11), 4 * 7 * (11 + 3));
    assert_eq!(archive_length(Edition::First, 3, 7), 6 + 8 * 3 + 8 * 7);
    assert_eq!(archive_length(Edition::Second, 3, 7), 8 + 10 * 3 + 8 * 7);
    let sheets = [1, 58, 59, 116, 117].map(sheets_length);
    assert_eq!(sheets, [4860, 4860, 9720, 9720, 14580]);
}

/// Each door of the header is declared here, and no other.
#[test]
fn the_doors_are_the_headers() {
    let doors = include_str!("../src/doors.rs");
    let named = |text: &'static str| {
        let names = text.split(|c: char| !(c.is_ascii_alphanumeric() || c == '_'));
        let doors = names.filter(|name| name.starts_with("balduqen_") && !name.ends_with("answer"));
        let mut doors: Vec<&str> = doors.collect();
        doors.sort_unstable();
        doors.dedup();
        doors
    };
    assert_eq!(named(doors), named(HEADER));
    assert_eq!(named(doors).len(), 17);
}
