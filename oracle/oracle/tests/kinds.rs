//! The kinds against `docs/KINDS.md`, and the lexer of the tests against both.

use oracle::kinds::{self, Kind, TOKENS};
use oracle::text;

const PAGE: &str = include_str!("../../../docs/KINDS.md");

#[test]
fn as_the_page_lists_them() {
    let row = |line: &str| {
        let cells = line.strip_prefix("| ")?.strip_suffix(" |")?;
        let (number, name) = cells.split_once(" | ")?;
        Some((number.parse::<u8>().ok()?, name.replace("\\|", "|")))
    };
    let page: Vec<(u8, String)> = PAGE.lines().filter_map(row).collect();
    let ours: Vec<(u8, String)> = kinds::list()
        .into_iter()
        .map(|(number, name)| (number, name.to_owned()))
        .collect();
    assert_eq!(page, ours);
}

#[test]
fn numbers_go_both_ways() {
    for (number, _) in TOKENS {
        assert_eq!(Kind::of_token(*number).token_number(), *number);
    }
    for number in 96..=127 {
        assert_eq!(Kind::of_token(number), Kind::Other);
    }
}

/// Every token kind can be written in a test, and reads back as itself.
#[test]
fn texts() {
    let all = "a::super crate self Self true false 1\"s\"b\"t\"'c'b'd' // e\n/* f */@()[]{},.;:=!-&*?'label#<>+/% \
               == != <= >= && || << >> ^ | as is not += -= *= /= %= &= ^= |= <<= >>= .. ..= => _ «»`g` async await \
               break const continue default else enum fn for if impl in let loop match mod move pub return select \
               struct use while yield";
    let (kinds, lens) = text::tokens(all);
    let mut seen: Vec<u8> = kinds.clone();
    seen.sort_unstable();
    seen.dedup();
    assert_eq!(seen, (1..=95).collect::<Vec<u8>>());
    assert_eq!(lens.iter().sum::<u32>() as usize, all.len());

    let significant: Vec<u8> = kinds
        .into_iter()
        .filter(|k| !(14..=16).contains(k))
        .collect();
    assert!(significant.is_sorted(), "in the order of their numbers");
}
