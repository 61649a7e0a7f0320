//! Packets as bytes, as `sharewire` spells and reads them, in plain Rust: the packets and the stream of
//! `benchmarks/timings/src/frames.rt`, fed in pieces of the same size, with the same tests of what is read.

use std::hint::black_box;
use std::time::Instant;

const FRAMES: u64 = 100_000;
const PIECE: usize = 4_096;

#[allow(dead_code)]
enum Change {
    AddHost { handle: Vec<u8>, mask: Vec<u8> },
    AddBan { channel: Vec<u8>, mask: Vec<u8>, creator: Vec<u8>, expires: u64, comment: Vec<u8> },
}

#[allow(dead_code)]
enum Packet {
    Change { number: u32, origin: u16, request: u32, change: Change },
    BotText { from: u16, to: u16, text: Vec<u8> },
}

fn put_text(out: &mut Vec<u8>, text: &[u8]) {
    out.push(text.len() as u8);
    out.extend_from_slice(text);
}

fn put_change(out: &mut Vec<u8>, change: &Change) {
    match change {
        Change::AddHost { handle, mask } => {
            out.push(3);
            put_text(out, handle);
            put_text(out, mask);
        }
        Change::AddBan { channel, mask, creator, expires, comment } => {
            out.push(8);
            put_text(out, channel);
            put_text(out, mask);
            put_text(out, creator);
            out.extend_from_slice(&expires.to_be_bytes());
            put_text(out, comment);
        }
    }
}

fn write_packet(packet: &Packet) -> Vec<u8> {
    let mut out = vec![0, 0];
    match packet {
        Packet::Change { number, origin, request, change } => {
            out.push(2);
            out.extend_from_slice(&number.to_be_bytes());
            out.extend_from_slice(&origin.to_be_bytes());
            out.extend_from_slice(&request.to_be_bytes());
            put_change(&mut out, change);
        }
        Packet::BotText { from, to, text } => {
            out.push(7);
            out.extend_from_slice(&from.to_be_bytes());
            out.extend_from_slice(&to.to_be_bytes());
            out.extend_from_slice(&(text.len() as u16).to_be_bytes());
            out.extend_from_slice(text);
        }
    }
    let length = (out.len() - 2) as u16;
    out[..2].copy_from_slice(&length.to_be_bytes());
    out
}

struct Reader<'a> {
    bytes: &'a [u8],
}

impl<'a> Reader<'a> {
    fn take(&mut self, count: usize) -> Option<&'a [u8]> {
        let (front, rest) = self.bytes.split_at_checked(count)?;
        self.bytes = rest;
        Some(front)
    }

    fn byte(&mut self) -> Option<u8> {
        Some(self.take(1)?[0])
    }

    fn number(&mut self, count: usize) -> Option<u64> {
        Some(self.take(count)?.iter().fold(0, |number, byte| number << 8 | u64::from(*byte)))
    }

    fn text(&mut self, is_good: fn(&[u8]) -> bool) -> Option<Vec<u8>> {
        let count = self.byte()?;
        let text = self.take(usize::from(count))?;
        is_good(text).then(|| text.to_vec())
    }
}

fn is_handle(text: &[u8]) -> bool {
    (1..=32).contains(&text.len()) && text.iter().all(|b| (33..=126).contains(b) && !b"*,:@".contains(b))
}

fn is_mask(text: &[u8]) -> bool {
    let Some(bang) = text.iter().position(|b| *b == b'!') else { return false };
    text.len() <= 120 && text[bang..].contains(&b'@') && text.iter().all(|b| *b > 32)
}

fn is_ban_channel(text: &[u8]) -> bool {
    match text {
        [] => true,
        [first, ..] => text.len() <= 100 && b"&#+!".contains(first) && !text.iter().any(|b| b" ,\x07".contains(b)),
    }
}

fn is_comment(text: &[u8]) -> bool {
    text.len() <= 100 && !text.iter().any(|b| b"\0\r\n".contains(b))
}

fn is_bot_text(text: &[u8]) -> bool {
    (1..=400).contains(&text.len()) && !text.iter().any(|b| b"\0\r\n".contains(b))
}

fn read_change(reader: &mut Reader) -> Option<Change> {
    match reader.byte()? {
        3 => Some(Change::AddHost { handle: reader.text(is_handle)?, mask: reader.text(is_mask)? }),
        8 => Some(Change::AddBan {
            channel: reader.text(is_ban_channel)?,
            mask: reader.text(is_mask)?,
            creator: reader.text(is_handle)?,
            expires: reader.number(8)?,
            comment: reader.text(is_comment)?,
        }),
        _ => None,
    }
}

fn read_body(kind: u8, body: &[u8]) -> Option<Packet> {
    let mut reader = Reader { bytes: body };
    let packet = match kind {
        2 => Packet::Change {
            number: reader.number(4)? as u32,
            origin: reader.number(2)? as u16,
            request: reader.number(4)? as u32,
            change: read_change(&mut reader)?,
        },
        7 => {
            let (from, to) = (reader.number(2)? as u16, reader.number(2)? as u16);
            let count = reader.number(2)? as usize;
            let text = reader.take(count)?;
            if !is_bot_text(text) {
                return None;
            }
            Packet::BotText { from, to, text: text.to_vec() }
        }
        _ => return None,
    };
    reader.bytes.is_empty().then_some(packet)
}

/// The packets whose frames end in this piece; the begin of the next frame is held.
fn feed(held: &mut Vec<u8>, piece: &[u8]) -> Option<Vec<Packet>> {
    held.extend_from_slice(piece);
    let mut packets = Vec::new();
    let mut at = 0;
    while let Some(length) = held.get(at..at + 2) {
        let length = usize::from(u16::from_be_bytes([length[0], length[1]]));
        if !(1..=40_000).contains(&length) {
            return None;
        }
        let Some(inside) = held.get(at + 2..at + 2 + length) else { break };
        packets.push(read_body(inside[0], &inside[1..])?);
        at += 2 + length;
    }
    held.drain(..at);
    Some(packets)
}

fn told(name: &str, calls: u64, start: Instant) {
    let nanos = start.elapsed().as_nanos();
    let each = nanos / u128::from(calls.max(1));
    eprintln!("{:<8} {name:<20} {calls:>8} {:>8} {:>8}.{:03}", "frames", nanos / 1_000_000, each / 1000, each % 1000);
}

fn main() {
    let hostmask = Change::AddHost { handle: b"alice".to_vec(), mask: b"*!*alice@*.host17.example.net".to_vec() };
    let ban = Change::AddBan {
        channel: b"#channel".to_vec(),
        mask: b"*!*@*.bad.example.net".to_vec(),
        creator: b"alice".to_vec(),
        expires: 1_900_000_000,
        comment: b"spam in three channels, twice asked to stop".to_vec(),
    };
    let text = b"op nick #channel, who has just come back from a netsplit".to_vec();
    let packets = [
        ("write-hostmask", Packet::Change { number: 70_000, origin: 3, request: 17, change: hostmask }),
        ("write-ban", Packet::Change { number: 70_000, origin: 3, request: 17, change: ban }),
        ("write-text", Packet::BotText { from: 3, to: 0, text }),
    ];
    let mut stream = Vec::new();
    for (name, packet) in &packets {
        let start = Instant::now();
        for _ in 0..FRAMES {
            stream.extend_from_slice(&write_packet(black_box(packet)));
        }
        told(name, FRAMES, start);
    }
    eprintln!("# bytes of the frames: {}", stream.len());
    let start = Instant::now();
    let (mut held, mut count) = (Vec::new(), 0);
    for piece in stream.chunks(PIECE) {
        let packets = feed(&mut held, piece).expect("good frames");
        count += black_box(packets).len() as u64;
    }
    told("read", count, start);
    eprintln!("# packets read: {count}");
}
