//! Which binds an event calls, as `procs` answers it, in plain Rust: the same binds and subjects as
//! `benchmarks/timings/src/binds.rt`. Minutes and whole lines have no counterpart here.
//!
//! The text is folded once, and masks are tried on it one after another; keywords are found in a hash map.

use std::collections::HashMap;
use std::hint::black_box;
use std::time::Instant;

const BINDS: u32 = 500;
const FIRST: u32 = 100;
const TEXTS: u32 = 16;
const CALLS: u32 = 10_000;

const SAID: &str =
    "#egg !cmd< the quick brown fox jumps over the lazy dog and says word< to everybody who is there";

fn fold(byte: u8) -> u8 {
    match byte {
        b'A'..=b']' => byte + 32,
        b'~' => b'^',
        _ => byte,
    }
}

fn folded(text: &[u8]) -> Vec<u8> {
    text.iter().map(|byte| fold(*byte)).collect()
}

fn is_special(byte: u8) -> bool {
    matches!(byte, b'?' | b'*' | b'%' | b'~' | b'\\')
}

/// One item of a mask.
enum Item {
    Literal(u8),
    AnyByte,
    AnyText,
    AnyWord,
    Spaces,
}

/// The items of a mask.
fn items(mask: &[u8]) -> Vec<Item> {
    let mut items = Vec::new();
    let mut rest = mask;
    loop {
        let (item, len) = match rest {
            [] => return items,
            [b'\\', escaped, ..] if is_special(*escaped) => (Item::Literal(fold(*escaped)), 2),
            [b'?', ..] => (Item::AnyByte, 1),
            [b'*', ..] => (Item::AnyText, 1),
            [b'%', ..] => (Item::AnyWord, 1),
            [b'~', ..] => (Item::Spaces, 1),
            [byte, ..] => (Item::Literal(fold(*byte)), 1),
        };
        items.push(item);
        rest = &rest[len..];
    }
}

/// Whether the items match all of a text that is folded.
fn matches(items: &[Item], text: &[u8]) -> bool {
    match items {
        [] => text.is_empty(),
        [Item::Literal(byte), rest @ ..] => text.first() == Some(byte) && matches(rest, &text[1..]),
        [Item::AnyByte, rest @ ..] => !text.is_empty() && matches(rest, &text[1..]),
        [Item::AnyText, rest @ ..] => (0..=text.len()).any(|cut| matches(rest, &text[cut..])),
        [Item::AnyWord, rest @ ..] => {
            let end = text.iter().position(|byte| *byte == b' ').unwrap_or(text.len());
            (0..=end).any(|cut| matches(rest, &text[cut..]))
        }
        [Item::Spaces, rest @ ..] => {
            let end = text.iter().position(|byte| *byte != b' ').unwrap_or(text.len());
            (1..=end).any(|cut| matches(rest, &text[cut..]))
        }
    }
}

fn filled(text: &str, number: u32) -> Vec<u8> {
    text.replace('<', &number.to_string()).into_bytes()
}

/// Subjects with the numbers of binds all over a table of so many.
fn subjects(text: &str, count: u32) -> Vec<Vec<u8>> {
    (0..TEXTS).map(|number| filled(text, FIRST + number * 31 % count)).collect()
}

fn report(name: &str, calls: u32, start: Instant) {
    let spent = start.elapsed();
    let each = spent.as_nanos() / u128::from(calls);
    eprintln!(
        "{:<8} {name:<20} {calls:>8} {:>8} {:>8}.{:03}",
        "binds",
        spent.as_millis(),
        each / 1_000,
        each % 1_000
    );
}

/// So many binds of a mask, tried on texts.
fn masks(name: &str, mask: &str, count: u32) {
    let table: Vec<_> = (0..count).map(|place| items(&filled(mask, FIRST + place))).collect();
    let subjects = subjects(SAID, count);
    let start = Instant::now();
    let mut called = 0;
    for number in 0..CALLS {
        let subject = folded(&subjects[(number % TEXTS) as usize]);
        called += black_box(&table).iter().filter(|mask| matches(mask, &subject)).count();
    }
    report(name, CALLS, start);
    eprintln!("# {name}: {called}");
}

/// As many keywords, looked up.
fn keywords(name: &str, keyword: &str, count: u32) {
    let table: HashMap<_, _> =
        (0..count).map(|place| (folded(&filled(keyword, FIRST + place)), place)).collect();
    let subjects = subjects(keyword, count);
    let start = Instant::now();
    let mut called = 0;
    for number in 0..CALLS {
        let subject = folded(&subjects[(number % TEXTS) as usize]);
        called += usize::from(black_box(&table).contains_key(&subject));
    }
    report(name, CALLS, start);
    eprintln!("# {name}: {called}");
}

fn main() {
    masks("one", "% !cmd<*", 1);
    masks("commands", "% !cmd<*", BINDS);
    masks("words", "*word<*", BINDS);
    keywords("keywords", "!cmd<", BINDS);
}
