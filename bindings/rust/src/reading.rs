//! A log's records, read one behind another from a folder's files.

use crate::calls::{
    BEGIN, BLOCK_DATA, BlockAsked, CLOSE, DATA, HAND_IN, IMAGE, Made, NEXT, ReaderAsked, TELL_BLOCK, pgwal_make_reader,
    pgwal_reader_call,
};
use crate::disk::segment_name;
use crate::{Block, Image, Relation};
use std::fs::File;
use std::io::{self, ErrorKind};
use std::os::unix::fs::FileExt;
use std::path::{Path, PathBuf};

/// A record that was read.
#[derive(Clone, Debug)]
pub struct Found {
    /// Where it starts and ends, and where the record before starts.
    pub start: u64,
    pub end: u64,
    pub prev: u64,
    /// Its bytes in all.
    pub total: u32,
    pub xid: u32,
    pub rmid: u8,
    pub info: u8,
    /// Its main data.
    pub data: Vec<u8>,
    /// The blocks that it references.
    pub blocks: Vec<Block<Vec<u8>>>,
}

/// Why no record was read.
#[derive(Debug)]
pub enum ReadError {
    /// The log is damaged at this address, or has a record there that is not read. It is told again from then on.
    Damaged { at: u64, kind: &'static str },
    /// A file could not be read.
    File(io::Error),
    Memory,
    /// No log has segments of this size.
    Size,
    /// An answer that should not come.
    Other(u32),
}

impl std::fmt::Display for ReadError {
    fn fmt(&self, f: &mut std::fmt::Formatter) -> std::fmt::Result {
        write!(f, "{self:?}")
    }
}

impl std::error::Error for ReadError {}

// As the header has them.
const DAMAGES: [&str; 20] = [
    "magic", "flags", "nolong", "longinside", "segsize", "pagesize", "sysid", "address", "timeline", "claims",
    "length", "rmgr", "prev", "missing", "nocontinuation", "remlen", "crc", "malformed", "compressed",
    "overwritten",
];

pub fn damage_name(damage: u32) -> &'static str {
    (damage as usize).checked_sub(1).and_then(|n| DAMAGES.get(n)).copied().unwrap_or("")
}

const DONE: u32 = 0;
const WANTED: u32 = 14;
const END_OF_LOG: u32 = 15;
const DAMAGED: u32 = 16;
const MEMORY: u32 = 5;

/// The records of a folder's log. It takes no lock, and may read beside an open log. At the log's end it gives none;
/// asked again it goes on if more was written.
pub struct Records {
    handle: *mut u8,
    path: PathBuf,
    seg_size: u64,
    // The segment that was read last.
    file: Option<(u64, File)>,
    call: Box<ReaderAsked>,
    end: u64,
}

// A handle may go from thread to thread where one call at a time is made with it, as `&mut` has it.
unsafe impl Send for Records {}

impl Records {
    /// Reads from an address on, at which or behind which the first record starts; 0 is where a log of pgwal's begins.
    pub fn open(folder: impl AsRef<Path>, seg_size: u64, start: u64) -> Result<Records, ReadError> {
        let path = folder.as_ref().canonicalize().map_err(ReadError::File)?;
        let mut made = Made { reader: std::ptr::null_mut() };
        if unsafe { pgwal_make_reader(&mut made) } != DONE {
            return Err(ReadError::Memory);
        }
        let start = if start == 0 { seg_size } else { start };
        let call = Box::new(ReaderAsked {
            asked: BEGIN, xid: 0, rmid: 0, info: 0, there: 0, blocks: 0, index: 0, block: BlockAsked::default(),
            total: 0, damage: 0, seg_size, start, end: 0, prev: 0, segment: 0, page: 0, len: 0, offset: 0,
            bytes: [0; 8192],
        });
        let mut records = Records { handle: made.reader, path, seg_size, file: None, call, end: start };
        match records.ask(BEGIN) {
            DONE => Ok(records),
            _ => Err(ReadError::Size),
        }
    }

    /// Where the log ends, once no record came.
    pub fn end(&self) -> u64 {
        self.end
    }

    fn ask(&mut self, asked: u32) -> u32 {
        self.call.asked = asked;
        unsafe { pgwal_reader_call(self.handle, &mut *self.call) }
    }

    // Reads the page that is wanted into the call: it is there if its file has all of it.
    fn read_page(&mut self) -> io::Result<()> {
        self.call.there = 0;
        let segment = self.call.segment;
        if self.file.as_ref().is_none_or(|(at, _)| *at != segment) {
            self.file = match File::open(self.path.join(segment_name(segment, self.seg_size))) {
                Ok(file) => Some((segment, file)),
                Err(e) if e.kind() == ErrorKind::NotFound => return Ok(()),
                Err(e) => return Err(e),
            };
        }
        let Some((_, file)) = &self.file else {
            return Ok(());
        };
        let at = u64::from(self.call.page) * 8192;
        match file.read_exact_at(&mut self.call.bytes, at) {
            Ok(()) => self.call.there = 1,
            Err(e) if e.kind() == ErrorKind::UnexpectedEof => {}
            Err(e) => return Err(e),
        }
        Ok(())
    }

    // So many bytes of the record that came: its main data, a block's data or its image.
    fn data(&mut self, asked: u32, len: u64) -> Result<Vec<u8>, ReadError> {
        let mut data = Vec::with_capacity(len as usize);
        while (data.len() as u64) < len {
            self.call.offset = data.len() as u64;
            match self.ask(asked) {
                DONE => data.extend_from_slice(&self.call.bytes[..self.call.len as usize]),
                answer => return Err(ReadError::Other(answer)),
            }
        }
        Ok(data)
    }

    // The block of that record at an index.
    fn block(&mut self, index: u64) -> Result<Block<Vec<u8>>, ReadError> {
        self.call.index = index;
        match self.ask(TELL_BLOCK) {
            DONE => {}
            answer => return Err(ReadError::Other(answer)),
        }
        let BlockAsked { id, fork, spc, db, rel, blk, apply, hole_offset, hole_len, .. } = self.call.block;
        let BlockAsked { will_init, has_image, len, image_len, .. } = self.call.block;
        let data = self.data(BLOCK_DATA, len)?;
        let image = match has_image {
            0 => None,
            _ => Some(Image { apply: apply != 0, hole_offset, hole_len, bytes: self.data(IMAGE, image_len)? }),
        };
        let relation = Relation { spc, db, rel };
        Ok(Block { id, relation, fork, blk, will_init: will_init != 0, data, image })
    }

    // Hands in the page that is wanted, and up to so many of its segment from there on.
    fn hand_in(&mut self, count: u32) -> Result<(), ReadError> {
        for n in 0..count {
            self.read_page().map_err(ReadError::File)?;
            if n > 0 && self.call.there == 0 {
                break;
            }
            if self.ask(HAND_IN) != DONE {
                return Err(ReadError::Memory);
            }
            self.call.page += 1;
        }
        Ok(())
    }

    fn read(&mut self) -> Result<Option<Found>, ReadError> {
        // A record is taken up anew at each page that is wanted: so twice as many are handed in each time.
        let mut count = 1;
        loop {
            match self.ask(NEXT) {
                DONE => break,
                WANTED => {
                    self.hand_in(count)?;
                    count = (2 * count).min(1024);
                }
                END_OF_LOG => {
                    self.end = self.call.end;
                    return Ok(None);
                }
                DAMAGED => {
                    return Err(ReadError::Damaged { at: self.call.start, kind: damage_name(self.call.damage) });
                }
                MEMORY => return Err(ReadError::Memory),
                answer => return Err(ReadError::Other(answer)),
            }
        }
        let ReaderAsked { start, end, prev, total, xid, rmid, info, blocks, len, .. } = *self.call;
        let data = self.data(DATA, len)?;
        let blocks = (0..blocks).map(|index| self.block(index)).collect::<Result<_, _>>()?;
        Ok(Some(Found { start, end, prev, total, xid, rmid, info, data, blocks }))
    }
}

impl Iterator for Records {
    type Item = Result<Found, ReadError>;

    fn next(&mut self) -> Option<Self::Item> {
        self.read().transpose()
    }
}

impl Drop for Records {
    fn drop(&mut self) {
        self.ask(CLOSE);
    }
}
