//! Each call and each constant of ymx.h stands in this crate, with the same value, and no other does.

use std::collections::BTreeMap;

const HEADER: &str = include_str!("../../../../c/ymx.h");
const CRATE: &str = include_str!("../src/lib.rs");

fn plain(number: &str) -> i64 {
    number.replace('_', "").parse().unwrap()
}

/// `NAME value` and `NAME = value`, where the value is a number.
fn constants_of_header() -> BTreeMap<String, i64> {
    let defines = HEADER
        .lines()
        .filter_map(|line| line.strip_prefix("#define YMX_"))
        .filter_map(|rest| rest.split_once(' '))
        .filter(|(_, value)| value.chars().all(|letter| letter.is_ascii_digit()))
        .map(|(name, value)| (format!("YMX_{name}"), plain(value)));
    let mut words = HEADER
        .split(|letter: char| letter.is_whitespace() || "{},;".contains(letter))
        .filter(|word| !word.is_empty());
    let mut members = BTreeMap::new();
    let mut name = "";
    while let Some(word) = words.next() {
        if word == "=" {
            if let Ok(value) = words.next().unwrap().parse() {
                members.insert(name.to_string(), value);
            }
        }
        name = word;
    }
    members.extend(defines);
    members.retain(|name, _| name.starts_with("YMX_"));
    members
}

fn constants_of_crate() -> BTreeMap<String, i64> {
    CRATE
        .lines()
        .filter_map(|line| line.strip_prefix("pub const "))
        .filter_map(|rest| {
            let (name, rest) = rest.split_once(':')?;
            let value = rest.split_once("= ")?.1.strip_suffix(';')?;
            (!value.contains('*')).then(|| (name.to_string(), plain(value)))
        })
        .collect()
}

#[test]
fn the_constants_are_those_of_the_header() {
    let constants = constants_of_header();
    assert!(constants.len() > 30);
    assert_eq!(constants_of_crate(), constants);
}

/// The names of the calls, and how many parameters each has.
fn calls<'a>(lines: impl Iterator<Item = &'a str>, head: &str) -> BTreeMap<String, usize> {
    let text = lines.collect::<Vec<_>>().join(" ");
    text.split(head)
        .skip(1)
        .map(|call| {
            let (front, rest) = call.split_once('(').unwrap();
            let parameters = rest.split_once(')').unwrap().0.trim();
            let name = front.rsplit([' ', '*']).next().unwrap();
            let count = parameters
                .split(',')
                .filter(|word| !["", "void"].contains(&word.trim()))
                .count();
            (name.to_string(), count)
        })
        .collect()
}

#[test]
fn the_calls_are_those_of_the_header() {
    let declared = calls(HEADER.lines().filter(|line| !line.starts_with('#')), "YMX_API ");
    assert!(declared.len() > 40);
    assert_eq!(calls(CRATE.lines(), "pub fn "), declared);
}
