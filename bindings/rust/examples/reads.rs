//! Reads a log back: each record's place and transaction, as `commits` tells them, and whether its main data is what
//! that program wrote; then how the log ends.
//!
//!     cargo run --release --example reads [FOLDER]

use pgwal::{Found, ReadError, Records};

fn as_written(found: &Found) -> bool {
    let words = String::from_utf8_lossy(&found.data).into_owned();
    let words: Vec<&str> = words.split(' ').collect();
    words.len() == 4 && words[0] == "thread" && words[1].parse() == Ok(i64::from(found.xid) - 1) && words[2] == "record"
}

fn main() -> Result<(), ReadError> {
    let folder = std::env::args().nth(1).unwrap_or_else(|| "pg_wal".into());
    let mut records = Records::open(folder, 16 << 20, 0)?;
    for found in &mut records {
        let found = found?;
        let other = if as_written(&found) { "" } else { " other data" };
        println!("{:X}/{:08X} {}{other}", found.start >> 32, found.start as u32, found.xid);
    }
    eprintln!("{:x}", records.end());
    Ok(())
}
