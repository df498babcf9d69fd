//! A record with two blocks, of which one has an image with a hole, is committed ahead of the disk, flushed behind, and
//! read back. Prints what was refused, and whether what came back is what was written.
//!
//!     cargo run --release --example blocks [FOLDER]

use pgwal::{Block, Error, Image, Log, Record, Records, Relation, Setup};

fn write(folder: &str, record: Record, bad: Record) -> Result<u64, Error> {
    let setup = Setup { seg_size: 16 << 20, sysid: 1, ring_pages: 64, cap_segments: 4, sessions: 2 };
    let log = Log::open(folder, setup)?;
    let mut session = log.session()?;
    println!("refused: {:?}", session.append(bad).err());
    let place = session.commit_async(record)?;
    // Whole pages come first, then the rest.
    let mut hard = session.write_behind()?;
    while hard.upto < place.end {
        hard = session.write_behind()?;
    }
    Ok(place.start)
}

fn main() -> Result<(), Box<dyn std::error::Error>> {
    let folder = std::env::args().nth(1).unwrap_or_else(|| "pg_blocks".into());
    let page: Vec<u8> = (0..8092u32).map(|i| (i * 5 + 1) as u8).collect();
    let image = Image { apply: true, hole_offset: 24, hole_len: 100, bytes: page.as_slice() };
    let relation = Relation { spc: 1663, db: 5, rel: 16384 };
    let first = Block { relation, fork: 2, blk: 7, will_init: true, data: b"one".as_slice(), ..Block::default() };
    let second = Block { id: 32, relation, blk: 0xFFFF_FFFE, image: Some(image), ..Block::default() };
    let blocks = [first, second];
    let record = Record { xid: 3, rmid: 128, data: b"main", blocks: &blocks, ..Record::default() };
    let start = write(&folder, record, Record { blocks: &[second, first], ..record })?;
    let found = Records::open(&folder, 16 << 20, 0)?.next().ok_or("no record")??;
    let lent: Vec<Block<&[u8]>> = found.blocks.iter().map(Block::lent).collect();
    let same = (found.start, found.xid, found.data.as_slice()) == (start, 3, b"main".as_slice()) && lent == blocks;
    println!("read back: {same}");
    Ok(())
}
