//! Masks on a text each, as `wildmask` matches them, in plain Rust: the same masks and texts as
//! `benchmarks/timings/src/masks.rt`, but for those with `%` or `~`.
//!
//! The match is a loop that goes back to the last star, over the mask's text.

use std::hint::black_box;
use std::time::Instant;

const CALLS: u32 = 100_000;

fn fold(byte: u8) -> u8 {
    match byte {
        b'A'..=b']' => byte + 32,
        b'~' => b'^',
        _ => byte,
    }
}

fn is_special(byte: u8) -> bool {
    matches!(byte, b'?' | b'*' | b'%' | b'~' | b'\\')
}

/// One item of a mask.
enum Item {
    Literal(u8),
    AnyByte,
    AnyText,
}

/// The first item of a mask, and how many bytes it has there.
fn first_item(mask: &[u8]) -> Option<(Item, usize)> {
    Some(match mask {
        [] => return None,
        [b'\\', escaped, ..] if is_special(*escaped) => (Item::Literal(*escaped), 2),
        [b'?', ..] => (Item::AnyByte, 1),
        [b'*', ..] => (Item::AnyText, 1),
        [byte, ..] => (Item::Literal(*byte), 1),
    })
}

/// Whether a mask matches all of a text: a loop lets the last star take one byte more where the rest does not match.
fn matches(mask: &[u8], text: &[u8]) -> bool {
    let (mut at_mask, mut at_text) = (0, 0);
    let mut star = None;
    loop {
        match first_item(&mask[at_mask..]) {
            Some((Item::AnyText, len)) => {
                at_mask += len;
                star = Some((at_mask, at_text));
                continue;
            }
            Some((Item::AnyByte, len)) if at_text < text.len() => {
                at_mask += len;
                at_text += 1;
                continue;
            }
            Some((Item::Literal(byte), len))
                if at_text < text.len() && fold(text[at_text]) == fold(byte) =>
            {
                at_mask += len;
                at_text += 1;
                continue;
            }
            None if at_text == text.len() => return true,
            _ => {}
        }
        match &mut star {
            Some((behind, from)) if *from < text.len() => {
                *from += 1;
                at_mask = *behind;
                at_text = *from;
            }
            _ => return false,
        }
    }
}

const CASES: [(&str, &[u8], &[u8]); 8] = [
    (
        "user",
        b"*!*user17@*.host17.example.net",
        b"bob!~user17@client.host17.example.net",
    ),
    (
        "user-miss",
        b"*!*user17@*.host17.example.net",
        b"bob!~user17@client.host17.example.com",
    ),
    (
        "ending",
        b"*!*@*.net",
        b"bob!~bob@client.host17.example.net",
    ),
    (
        "everybody",
        b"*!*@*",
        b"bob!~bob@client.host17.example.net",
    ),
    (
        "nick-miss",
        b"nick17!*@*",
        b"bob!~bob@client.host17.example.net",
    ),
    (
        "range",
        b"*!*@10.0.*",
        b"bob!~bob@10.0.17.3",
    ),
    (
        "word",
        b"*word17*",
        b"the quick brown fox jumps over the lazy dog and says word17 to everybody who is there",
    ),
    (
        "word-miss",
        b"*word17*",
        b"the quick brown fox jumps over the lazy dog and says word18 to everybody who is there",
    ),
];

fn main() {
    for (name, mask, text) in CASES {
        let start = Instant::now();
        let hits = (0..CALLS)
            .filter(|_| matches(black_box(mask), black_box(text)))
            .count();
        let spent = start.elapsed();
        let each = spent.as_secs_f64() * 1e6 / f64::from(CALLS);
        eprintln!("masks    {name:<20} {CALLS:>8} {:>8} {each:>12.3}", spent.as_millis());
        eprintln!("# texts that match: {hits}");
    }
}
