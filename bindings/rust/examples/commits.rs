//! Eight threads commit records behind those that are there, and each prints where its last one stands.
//!
//!     cargo run --release --example commits [FOLDER [RECORDS [places]]]

use pgwal::{Error, Log, Record, Sealed, Setup};
use std::{env, thread};

const THREADS: u32 = 8;

fn work(log: &Log, number: u32, records: u32, places: bool) -> Result<Option<Sealed>, Error> {
    let (mut session, mut last) = (log.session()?, None);
    for i in 0..records {
        let data = format!("thread {number} record {i}");
        // Resource manager 128 is the first one that is free for extensions.
        let sealed = session.commit(Record { xid: number + 1, rmid: 128, data: data.as_bytes(), ..Record::default() })?;
        if places {
            println!("{:X}/{:08X} {}", sealed.start >> 32, sealed.start as u32, number + 1);
        }
        last = Some(sealed);
    }
    Ok(last)
}

fn main() -> Result<(), Error> {
    let words: Vec<String> = env::args().collect();
    let folder = words.get(1).map_or("pg_wal", String::as_str);
    let records = words.get(2).and_then(|n| n.parse().ok()).unwrap_or(1000);
    let places = words.get(3).is_some();
    let setup = Setup { seg_size: 16 << 20, sysid: 1, ring_pages: 64, cap_segments: 64, sessions: THREADS + 1 };
    let log = &Log::open(folder, setup)?;
    eprintln!("{:x?}", log.found());
    thread::scope(|scope| {
        let begun = |number| scope.spawn(move || work(log, number, records, places));
        for thread in (0..THREADS).map(begun).collect::<Vec<_>>() {
            eprintln!("{:x?}", thread.join().expect("a thread that ended")?);
        }
        eprintln!("{:x?}", log.flush()?);
        Ok(())
    })
}
