//! What the random cases reach: the facts that the cases of a stream show, counted and
//! held against one table of all that they are to show, whatever the seed.

/// Adds facts: a row is a condition and the text of the fact where it holds.
macro_rules! shown {
    ($facts:expr; $($holds:expr => $text:literal $(, $part:expr)*;)*) => {{
        $(if $holds {
            $facts.insert(format!($text $(, $part)*));
        })*
    }};
}

mod blocks;
mod boards;
mod calls;
mod dates;
mod frames;
mod starts;
mod wanted;

use std::collections::{BTreeMap, BTreeSet};

use second::compare::random::random_cases;
use second::compare::stream::{cases, Case};

/// The script that names the seed and the number of the cases that are compared.
const GATE: &str = include_str!("../../../.ci/run");
/// How often each fact is to be shown at the least by such a stream of any seed.
const LEAST: usize = 4;
/// What such a stream may take, so that both programs stay quick.
const MOST_BYTES: usize = 15_000_000;

/// The facts that one case shows.
pub type Facts = BTreeSet<String>;

/// A byte as a fact names it: a character that can be seen, else two hex digits.
pub fn name(byte: u8) -> String {
    match byte {
        0x21..=0x7B => char::from(byte).to_string(),
        _ => format!("{byte:02X}"),
    }
}

/// The facts of the table: a word "a|b" of a row stands for each of these.
fn wanted() -> Vec<String> {
    let rows = wanted::WANTED.lines().flat_map(|line| line.split("; "));
    rows.filter(|row| !row.is_empty())
        .flat_map(expanded)
        .collect()
}

fn expanded(row: &str) -> Vec<String> {
    let mut facts = vec![String::new()];
    for word in row.split(' ') {
        let with = |fact: &String| word.split('|').map(|one| format!("{fact} {one}")).collect();
        facts = facts.iter().flat_map::<Vec<String>, _>(with).collect();
    }
    facts.iter().map(|fact| fact.trim().to_string()).collect()
}

/// The number that the gate gives this name: the digits at the end of its line.
fn of_gate(name: &str) -> u64 {
    let line = GATE.lines().find(|line| line.starts_with(name));
    let digits = |text: &str| {
        text.chars()
            .filter(char::is_ascii_digit)
            .collect::<String>()
    };
    let value = line.and_then(|line| line.rsplit(['=', '-']).next());
    digits(value.expect("a line of the gate"))
        .parse()
        .expect("a number")
}

/// As many cases of a seed as the gate compares.
fn cases_of(seed: u64) -> impl Iterator<Item = Case> {
    random_cases(seed).take(of_gate("count=") as usize)
}

/// How often the cases of a seed show each fact.
fn counts(seed: u64) -> BTreeMap<String, usize> {
    let mut counts = BTreeMap::new();
    for fact in cases_of(seed).flat_map(|case| calls::facts(&case)) {
        *counts.entry(fact).or_insert(0) += 1;
    }
    counts
}

/// Checks that each fact of the table is shown often enough by each of the seeds.
fn assert_shown(seeds: impl Iterator<Item = u64>) {
    let all: Vec<BTreeMap<String, usize>> = seeds.map(counts).collect();
    let count = |fact: &String, of: &BTreeMap<String, usize>| of.get(fact).copied();
    let least = |fact: &String| all.iter().map(|of| count(fact, of)).min().flatten();
    let mut table: Vec<_> = wanted()
        .into_iter()
        .map(|fact| (least(&fact), fact))
        .collect();
    table.sort();
    for (count, fact) in &table {
        println!("{} {fact}", count.unwrap_or(0));
    }
    assert!(table[0].0 >= Some(LEAST), "too seldom: {}", table[0].1);
}

#[test]
fn the_cases_of_the_gate_show_every_fact_of_the_table() {
    assert_shown([of_gate("seed=")].into_iter());
}

/// No part of the gate, since it takes several times as long as all other tests.
#[test]
#[ignore = "takes a while: cargo test --release -- --ignored"]
fn the_cases_of_twenty_seeds_show_every_fact_of_the_table() {
    assert_shown(1..=20);
}

#[test]
fn a_seed_gives_the_same_cases_again_and_they_stand_in_the_stream_as_drawn() {
    let drawn: Vec<Case> = cases_of(of_gate("seed=")).collect();
    let stream: Vec<u8> = drawn.iter().flat_map(Case::encode).collect();
    let again: Vec<Case> = cases(&stream).flatten().collect();
    assert!(drawn == again && cases_of(of_gate("seed=")).eq(again));
    assert!(stream.len() <= MOST_BYTES, "{} bytes", stream.len());
}
