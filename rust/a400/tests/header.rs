// The header for C and this package say the same of the record, the replies and
// sizes.

use a400::record::NAMES;
use a400::words::FIELDS;
use a400::{Reply, PAGE_REGISTERS, PAGE_WORDS, RECORD_WORDS};
use std::collections::BTreeMap;

const HEADER: &str = include_str!("../../../include/a400.h");

// The numbers that the header has names for: `#define NAME NUMBER` and
// `NAME = NUMBER`.
fn named() -> BTreeMap<String, usize> {
    let mut named = BTreeMap::new();
    for line in HEADER.lines() {
        let words: Vec<&str> = line.split_whitespace().collect();
        if let ["#define", name, number] | [name, "=", number, ..] = words[..] {
            let number = number.trim_end_matches(',').parse().expect("a number");
            assert_eq!(named.insert(name.to_string(), number), None, "{name} twice");
        }
    }
    named
}

// A name as C has it: InRegisters is A400_IN_REGISTERS.
fn in_c(reply: Reply) -> String {
    let mut name = "A400".to_string();
    for letter in format!("{reply:?}").chars() {
        if letter.is_uppercase() {
            name.push('_');
        }
        name.push(letter.to_ascii_uppercase());
    }
    name
}

#[test]
fn names_what_the_package_names() {
    let mut expected = BTreeMap::from([
        ("A400_RECORD_WORDS".to_string(), RECORD_WORDS),
        ("A400_PAGE_REGISTERS".to_string(), PAGE_REGISTERS),
        ("A400_PAGE_WORDS".to_string(), PAGE_WORDS),
        ("A400_FIELDS".to_string(), FIELDS),
    ]);
    expected.extend(NAMES.iter().enumerate().map(|(place, name)| (format!("A400_AT_{}", name.to_uppercase()), place)));
    expected.extend(Reply::ALL.map(|reply| (in_c(reply), reply.number() as usize)));
    assert_eq!(named(), expected);
}

#[test]
fn has_the_sentence_of_each_reply() {
    let text = HEADER.split_whitespace().collect::<Vec<_>>().join(" ");
    for reply in Reply::ALL {
        let line = format!("{} = {}", in_c(reply), reply.number());
        let (_, after) = text.split_once(&line).expect("a line for the reply");
        assert!(after.trim_start_matches(',').starts_with(&format!(" /* {reply} */")), "{line}");
    }
}
