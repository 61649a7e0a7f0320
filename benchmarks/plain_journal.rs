// What benchmarks/run times beside the journal in files: as many writes and syncs, in plain Rust.
use std::fs::{File, OpenOptions};
use std::io;
use std::os::unix::fs::FileExt;
use std::time::Instant;

const IN_FILES: u64 = 1_000;
const ENTRY: &[u8] = b"addhost alice *!*@*.host1.example.net";

fn append(file: &File, gate: u64, text: &[u8]) -> io::Result<u64> {
    let mut bytes = Vec::with_capacity(text.len() + 5);
    bytes.extend_from_slice(&(text.len() as u32).to_be_bytes());
    bytes.extend_from_slice(text);
    bytes.push(0);
    file.write_all_at(&bytes, gate + 1)?;
    file.sync_data()?;
    file.write_all_at(&[1], gate)?;
    file.sync_data()?;
    Ok(gate + bytes.len() as u64)
}

fn main() -> io::Result<()> {
    let Some(path) = std::env::args().nth(1) else {
        return Err(io::ErrorKind::InvalidInput.into());
    };
    let file = OpenOptions::new().read(true).write(true).create(true).truncate(true).open(path)?;
    let mut gate = 0;
    let start = Instant::now();
    for _ in 0..IN_FILES {
        gate = append(&file, gate, ENTRY)?;
    }
    let spent = start.elapsed();
    let (millis, nanos) = (spent.as_millis(), spent.as_nanos() / u128::from(IN_FILES));
    eprintln!(
        "{:<8} {:<20} {IN_FILES:>8} {millis:>8} {:>8}.{:03}",
        "journal",
        "append-files",
        nanos / 1000,
        nanos % 1000
    );
    eprintln!("# entries appended in files: {IN_FILES}");
    Ok(())
}
