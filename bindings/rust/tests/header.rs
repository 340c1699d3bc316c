//! The names in Rust are those of the header, with the same numbers.

use std::collections::BTreeMap;

const HEADER: &str = include_str!("../../../include/saltlicker.h");
const NAMES: &str = include_str!("../src/names.rs");

/// Lines of the form `START NAME ... = NUMBER`, where what follows the number does not matter.
fn numbers<'a>(text: &'a str, start: &str) -> BTreeMap<&'a str, u32> {
    let mut found = BTreeMap::new();
    for line in text.lines() {
        let Some((left, right)) =
            line.trim_start().strip_prefix(start).and_then(|line| line.split_once(" = "))
        else {
            continue;
        };
        let name = left.split(':').next().unwrap_or(left);
        let digits = right.split(|letter: char| !letter.is_ascii_digit()).next().unwrap_or("");
        assert!(found.insert(name, digits.parse().expect(line)).is_none(), "twice: {name}");
    }
    found
}

#[test]
fn rust_and_the_header_agree() {
    let header = numbers(HEADER, "SALTLICKER_");
    assert_eq!(header, numbers(NAMES, "pub const "));
    assert!(!header.is_empty());
}
