//! Who a person is, as `userfile` answers it, in plain Rust: the same users, hostmasks and persons as
//! `benchmarks/timings/src/persons.rt`, and the same rules.
//!
//! Of all hostmasks that match, the one with most literals decides, then the earlier user, then the earlier mask. In a
//! hostmask `?` is one byte, `*` any bytes, a backslash takes the meaning of one of `? * % ~ \` away, and every other
//! byte, `%` and `~` too, is a literal in either case, by casemapping (RFC 2812 section 2.2).

use std::time::Instant;

const USERS: u32 = 500;
const MASKS: u32 = 16;
const PERSONS: u32 = 1_000;

struct User {
    handle: Vec<u8>,
    masks: Vec<Vec<u8>>,
}

fn fold(byte: u8) -> u8 {
    match byte {
        b'A'..=b']' => byte + 32,
        b'~' => b'^',
        _ => byte,
    }
}

fn is_special(byte: u8) -> bool {
    matches!(byte, b'?' | b'*' | b'%' | b'~' | b'\\')
}

/// One item of a mask.
enum Item {
    Literal(u8),
    AnyByte,
    AnyText,
}

/// The first item of a mask, and how many bytes it has there.
fn first_item(mask: &[u8]) -> Option<(Item, usize)> {
    Some(match mask {
        [] => return None,
        [b'\\', escaped, ..] if is_special(*escaped) => (Item::Literal(*escaped), 2),
        [b'?', ..] => (Item::AnyByte, 1),
        [b'*', ..] => (Item::AnyText, 1),
        [byte, ..] => (Item::Literal(*byte), 1),
    })
}

/// Whether a mask matches all of a text: a loop lets the last star take one byte more where the rest does not match.
fn matches(mask: &[u8], text: &[u8]) -> bool {
    let (mut at_mask, mut at_text) = (0, 0);
    let mut star = None;
    loop {
        match first_item(&mask[at_mask..]) {
            Some((Item::AnyText, len)) => {
                at_mask += len;
                star = Some((at_mask, at_text));
                continue;
            }
            Some((Item::AnyByte, len)) if at_text < text.len() => {
                at_mask += len;
                at_text += 1;
                continue;
            }
            Some((Item::Literal(byte), len))
                if at_text < text.len() && fold(text[at_text]) == fold(byte) =>
            {
                at_mask += len;
                at_text += 1;
                continue;
            }
            None if at_text == text.len() => return true,
            _ => {}
        }
        match &mut star {
            Some((behind, from)) if *from < text.len() => {
                *from += 1;
                at_mask = *behind;
                at_text = *from;
            }
            _ => return false,
        }
    }
}

/// How many items of a mask are literals.
fn literals(mut mask: &[u8]) -> usize {
    let mut count = 0;
    while let Some((item, len)) = first_item(mask) {
        count += usize::from(matches!(item, Item::Literal(_)));
        mask = &mask[len..];
    }
    count
}

/// The handle of who a person is, `*` where no mask matches.
fn handle_of<'a>(users: &'a [User], who: &[u8]) -> &'a [u8] {
    let mut best: Option<(usize, &User)> = None;
    for user in users {
        for mask in &user.masks {
            if matches(mask, who) {
                let literals = literals(mask);
                if best.is_none_or(|(most, _)| literals > most) {
                    best = Some((literals, user));
                }
            }
        }
    }
    best.map_or(b"*", |(_, user)| &user.handle)
}

/// A shape of hostmasks: its name, the mask of a user's place, and a person whom it matches.
struct Shape {
    name: &'static str,
    mask: fn(u32, u32) -> String,
    person: fn(u32, u32) -> String,
}

const SHAPES: [Shape; 5] = [
    Shape {
        name: "user",
        mask: |user, host| format!("*!*user{user}@*.h{host}.example.net"),
        person: |user, host| format!("bob!~user{user}@client.h{host}.example.net"),
    },
    Shape {
        name: "nick",
        mask: |user, host| format!("nick{user}x{host}!*@host{user}.example.net"),
        person: |user, host| format!("nick{user}x{host}!bob@host{user}.example.net"),
    },
    Shape {
        name: "address",
        mask: |user, host| format!("*!*@10.0.{user}.{host}"),
        person: |user, host| format!("bob!~bob@10.0.{user}.{host}"),
    },
    Shape {
        name: "ending",
        mask: |user, host| format!("nick{user}x{host}!*@*"),
        person: |user, host| format!("nick{user}x{host}!bob@client.example.net"),
    },
    Shape {
        name: "range",
        mask: |user, host| format!("*!*@10.{user}.{host}.*"),
        person: |user, host| format!("bob!~bob@10.{user}.{host}.77"),
    },
];

fn users(shape: &Shape) -> Vec<User> {
    (0..USERS)
        .map(|user| User {
            handle: format!("user{user}").into_bytes(),
            masks: (0..MASKS)
                .map(|host| (shape.mask)(user, host).into_bytes())
                .collect(),
        })
        .collect()
}

fn look_up(name: &str, users: &[User], shape: &Shape, user: u32) {
    let persons: Vec<Vec<u8>> = (0..PERSONS)
        .map(|number| (shape.person)(user, number % MASKS).into_bytes())
        .collect();
    let start = Instant::now();
    let found = persons
        .iter()
        .filter(|who| handle_of(users, who) != b"*")
        .count();
    let spent = start.elapsed();
    let (calls, millis) = (persons.len(), spent.as_millis());
    let each = spent.as_secs_f64() * 1e6 / calls as f64;
    let row = format!("{}:{name}", shape.name);
    eprintln!("persons  {row:<20} {calls:>8} {millis:>8} {each:>12.3}");
    eprintln!("# persons with a handle: {found}");
}

fn main() {
    for shape in &SHAPES {
        let users = users(shape);
        look_up("nobody", &users, shape, USERS);
        look_up("first", &users, shape, 0);
        look_up("last", &users, shape, USERS - 1);
    }
}
