//! A write-ahead log for programs in Rust, over libpgwal_c.a. [`Log::open`] begins one, or goes on with the one that is
//! in the folder; each thread has a [`Session`] of its own. A [`Records`] reads a log back. See the README of the
//! bindings for what is proved of it, and what is trusted.

mod calls;
mod disk;
mod reading;

use calls::{
    ADD_BLOCK, ADD_IMAGE, APPEND, Asked, BlockAsked, DiskAsked, END, FLUSH, RAISE, SPLIT, SWITCH, WRITE_BEHIND,
};
use disk::{Disk, Unopened};
use std::io;
use std::path::Path;
use std::sync::atomic::Ordering::SeqCst;
use std::sync::atomic::{AtomicU32, AtomicU64, fence};
use std::sync::{Arc, Condvar, Mutex, MutexGuard, PoisonError, TryLockError};
use std::thread;

pub use reading::{Found, ReadError, Records};

/// What a log is opened with.
#[derive(Clone, Copy, Debug)]
pub struct Setup {
    /// Bytes of a segment: a power of two, 1 MiB to 1 GiB.
    pub seg_size: u64,
    /// The log's id, not 0.
    pub sysid: u64,
    /// Pages of 8192 bytes in the ring: 4 to 64.
    pub ring_pages: u32,
    /// Segments that the log may fill: 1 to 4096.
    pub cap_segments: u32,
    /// Sessions; the log has one itself.
    pub sessions: u32,
}

/// Why a call did not do what was asked. The numbers are those of the header.
#[derive(Debug)]
pub enum Error {
    /// Something was in the way: it may be tried again.
    Busy,
    /// The log has no more room: so many bytes are left.
    Full { free: u64 },
    /// The disk has failed. A record on its way may be found later, or not.
    Down,
    Memory,
    /// No log can have this setup.
    Setup,
    /// The address is above all that is reserved, which ends here.
    Unreserved { end: u64 },
    /// The record has more than 1,048,576 bytes, or takes up more than its session's share: half the ring less a page,
    /// divided by the sessions of the setup. It takes up its bytes, a 256th more and 128.
    Long,
    /// No resource manager has this number, or the record is one that the log alone writes.
    Manager,
    /// The record's block at this index is not right.
    Block { index: u64 },
    /// As many sessions as the setup allows are there.
    Sessions,
    /// What the folder or a file of it answered: WouldBlock where it is locked.
    Folder(io::Error),
    /// The log that is there is damaged at this address, or has a record there that is not read.
    Damaged { at: u64, kind: &'static str },
    /// A segment is there behind the last one that the log may have.
    Beyond { segment: u64 },
    /// The folder has segments that are not from the first one on, or of another size.
    Others,
    /// An answer that should not come.
    Other(u32),
}

impl std::fmt::Display for Error {
    fn fmt(&self, f: &mut std::fmt::Formatter) -> std::fmt::Result {
        write!(f, "{self:?}")
    }
}

impl std::error::Error for Error {}

const BUSY: u32 = 1;
const BEHIND: u32 = 2;
const UNRESERVED: u32 = 7;
const QUEUE: u32 = 13;
const IDLE: u32 = 19;

fn error_of(answer: u32, asked: &Asked) -> Error {
    match answer {
        BUSY | BEHIND | QUEUE => Error::Busy,
        3 => Error::Full { free: asked.detail },
        4 => Error::Down,
        5 => Error::Memory,
        6 => Error::Setup,
        UNRESERVED => Error::Unreserved { end: asked.end },
        8 => Error::Long,
        9 => Error::Manager,
        10 => Error::Sessions,
        18 => Error::Block { index: asked.detail },
        other => Error::Other(other),
    }
}

fn unopened_error(why: Unopened, call: &DiskAsked) -> Error {
    match why {
        Unopened::Answer(16) => Error::Damaged { at: call.end, kind: reading::damage_name(call.damage) },
        Unopened::Answer(17) => Error::Beyond { segment: call.segment },
        Unopened::Answer(answer) => error_of(answer, &Asked::new(0)),
        Unopened::Others => Error::Others,
        Unopened::File(e) => Error::Folder(e),
    }
}

/// What was found of a log when it was opened.
#[derive(Clone, Copy, Debug, PartialEq, Eq)]
pub struct LogFound {
    /// How many records it has, and where it ends.
    pub count: u64,
    pub end: u64,
}

/// A relation: its tablespace, its database and its own number.
#[derive(Clone, Copy, Debug, Default, PartialEq, Eq)]
pub struct Relation {
    pub spc: u32,
    pub db: u32,
    pub rel: u32,
}

/// A page's image: its bytes before and behind a hole of zeros. With the hole they are 8192, and the hole does not
/// begin at 0; where there is none, both its numbers are 0.
#[derive(Clone, Copy, Debug, Default, PartialEq, Eq)]
pub struct Image<B> {
    /// Whether redo puts it in the block's place.
    pub apply: bool,
    pub hole_offset: u16,
    pub hole_len: u16,
    pub bytes: B,
}

/// A block that a record references.
#[derive(Clone, Copy, Debug, Default, PartialEq, Eq)]
pub struct Block<B> {
    /// Its number in the record, 0 to 32, rising.
    pub id: u8,
    pub relation: Relation,
    /// 0 main, 1 fsm, 2 vm, 3 init.
    pub fork: u8,
    /// The block's number in its fork.
    pub blk: u32,
    /// Whether redo makes the page anew.
    pub will_init: bool,
    /// What the record has for it, at most 65535 bytes.
    pub data: B,
    pub image: Option<Image<B>>,
}

impl Block<Vec<u8>> {
    /// The block as a record takes it, to which this one's bytes are lent.
    pub fn lent(&self) -> Block<&[u8]> {
        let Block { id, relation, fork, blk, will_init, .. } = *self;
        let image = self.image.as_ref().map(|image| {
            let Image { apply, hole_offset, hole_len, .. } = *image;
            Image { apply, hole_offset, hole_len, bytes: image.bytes.as_slice() }
        });
        Block { id, relation, fork, blk, will_init, data: &self.data, image }
    }
}

/// A record.
#[derive(Clone, Copy, Debug, Default)]
pub struct Record<'a> {
    /// The transaction, 0 for none.
    pub xid: u32,
    /// The resource manager, and its info bits.
    pub rmid: u8,
    pub info: u8,
    /// Main data.
    pub data: &'a [u8],
    pub blocks: &'a [Block<&'a [u8]>],
}

/// Where a record stands.
#[derive(Clone, Copy, Debug, PartialEq, Eq)]
pub struct Place {
    pub start: u64,
    pub end: u64,
}

/// All below `upto` is durable since the disk's call `moment`.
#[derive(Clone, Copy, Debug, PartialEq, Eq)]
pub struct Hard {
    pub upto: u64,
    pub moment: u64,
}

/// Where a record stands that is durable since the disk's call `moment`.
#[derive(Clone, Copy, Debug, PartialEq, Eq)]
pub struct Sealed {
    pub start: u64,
    pub end: u64,
    pub moment: u64,
}

// A session of the library's. It may go from thread to thread where one call at a time is made with it.
struct Handle {
    session: *mut u8,
    // How many had come to flush when it did last: if more have since, there is company.
    come: u64,
}

unsafe impl Send for Handle {}

impl Handle {
    fn new(session: *mut u8) -> Handle {
        Handle { session, come: 0 }
    }

    fn call(&mut self, data: &[u8], asked: &mut Asked) -> u32 {
        unsafe { calls::pgwal_session_call(self.session, data.as_ptr(), data.len(), asked) }
    }

    // Adds a block to the record that is appended next.
    fn add_block(&mut self, block: &Block<&[u8]>) -> Result<(), (u32, Asked)> {
        let Block { id, fork, blk, will_init, relation: Relation { spc, db, rel }, .. } = *block;
        let mut asked = Asked::new(ADD_IMAGE);
        asked.block = BlockAsked { id, fork, will_init: will_init.into(), spc, db, rel, blk, ..Default::default() };
        if let Some(Image { apply, hole_offset, hole_len, bytes }) = block.image {
            asked.block = BlockAsked { apply: apply.into(), hole_offset, hole_len, ..asked.block };
            match self.call(bytes, &mut asked) {
                0 => {}
                answer => return Err((answer, asked)),
            }
        }
        asked.asked = ADD_BLOCK;
        match self.call(block.data, &mut asked) {
            0 => Ok(()),
            answer => Err((answer, asked)),
        }
    }

    fn try_flush(&mut self, upto: u64) -> (u32, Asked) {
        let mut asked = Asked::new(FLUSH);
        asked.upto = upto;
        let answer = self.call(&[], &mut asked);
        (answer, asked)
    }

    // One thread at a time leads: it writes and syncs what all others have appended, who then find it done.
    fn flush(&mut self, shared: &Shared, upto: u64) -> Result<Hard, Error> {
        let before = shared.come.fetch_add(1, SeqCst);
        let company = before != self.come;
        self.come = before + 1;
        let mut lead = match shared.lead_or_flushed(upto) {
            Ok(lead) => lead,
            Err(hard) => return Ok(hard),
        };
        if company {
            shared.gather();
        }
        if let Some(hard) = shared.told(upto) {
            return Ok(hard);
        }
        loop {
            let (answer, asked) = self.try_flush(upto);
            match answer {
                0 => return Ok(shared.tell(Hard { upto: asked.upto, moment: asked.moment })),
                BUSY | BEHIND | QUEUE => lead.make_calls()?,
                _ => return Err(error_of(answer, &asked)),
            }
            if answer == BUSY {
                thread::yield_now();
            }
        }
    }

    // Flushes behind, and tells up to where: whether that is durable, a flush tells.
    fn write_behind(&mut self, shared: &Shared) -> Result<u64, Error> {
        let mut lead = shared.wait_to_lead();
        loop {
            let mut asked = Asked::new(WRITE_BEHIND);
            match self.call(&[], &mut asked) {
                0 | BEHIND | IDLE => return Ok(asked.upto),
                BUSY | QUEUE => lead.make_calls()?,
                answer => return Err(error_of(answer, &asked)),
            }
            thread::yield_now();
        }
    }
}

struct Idle {
    // The log's own session, of which others are split, and those that ended, for others who come.
    own: Handle,
    ended: Vec<Handle>,
}

struct Shared {
    // Who has it leads: flushes, and makes the disk's calls. Nobody waits at it.
    disk: Mutex<Disk>,
    idle: Mutex<Idle>,
    // What the last flush told: of all below which address, since when; 0 at first.
    flushed: AtomicU64,
    moment: AtomicU64,
    // How many came to flush: while it rises, more may come.
    come: AtomicU64,
    // How many sleep until who leads is done.
    asleep: AtomicU32,
    sleep: Mutex<()>,
    lead_free: Condvar,
}

// How often it is yielded at most before a sleep: a millisecond or so.
const LOOKS: u32 = 1000;

struct Lead<'a> {
    shared: &'a Shared,
    disk: Option<MutexGuard<'a, Disk>>,
}

impl Lead<'_> {
    // Makes calls that are queued, up to a sync.
    fn make_calls(&mut self) -> Result<(), Error> {
        match &mut self.disk {
            Some(disk) if disk.error.is_none() => {
                disk.make_calls();
                if disk.error.is_some() { Err(Error::Down) } else { Ok(()) }
            }
            _ => Err(Error::Down),
        }
    }
}

impl Drop for Lead<'_> {
    fn drop(&mut self) {
        self.disk = None;
        fence(SeqCst);
        if self.shared.asleep.load(SeqCst) != 0 {
            let _sleep = locked(&self.shared.sleep);
            self.shared.lead_free.notify_all();
        }
    }
}

impl Shared {
    fn new(disk: Disk, idle: Idle) -> Shared {
        let (flushed, moment, come, asleep) = Default::default();
        let (sleep, lead_free) = Default::default();
        Shared { disk: Mutex::new(disk), idle: Mutex::new(idle), flushed, moment, come, asleep, sleep, lead_free }
    }

    // What anybody's flush told, where it reaches the address. The moment is stored before the address, and loaded
    // behind it: so it is never too early.
    fn told(&self, address: u64) -> Option<Hard> {
        let upto = self.flushed.load(SeqCst);
        let moment = self.moment.load(SeqCst);
        if address > 0 && address <= upto { Some(Hard { upto, moment }) } else { None }
    }

    fn tell(&self, hard: Hard) -> Hard {
        self.moment.store(hard.moment, SeqCst);
        self.flushed.store(hard.upto, SeqCst);
        hard
    }

    fn lead(&self) -> Option<Lead<'_>> {
        let disk = match self.disk.try_lock() {
            Ok(disk) => disk,
            Err(TryLockError::Poisoned(e)) => e.into_inner(),
            Err(TryLockError::WouldBlock) => return None,
        };
        Some(Lead { shared: self, disk: Some(disk) })
    }

    // Waits until an address is flushed, or nobody leads: then it leads. A sync may take no longer than a sleep, so it
    // yields first. Who falls asleep is counted before it looks once more, and who leads looks at the count behind its
    // end: one of the two sees the other.
    fn lead_or_flushed(&self, upto: u64) -> Result<Lead<'_>, Hard> {
        for _ in 0..LOOKS {
            if let Some(done) = self.look(upto) {
                return done;
            }
            thread::yield_now();
        }
        let mut sleep = locked(&self.sleep);
        self.asleep.fetch_add(1, SeqCst);
        fence(SeqCst);
        let done = loop {
            match self.look(upto) {
                Some(done) => break done,
                None => sleep = self.lead_free.wait(sleep).unwrap_or_else(PoisonError::into_inner),
            }
        };
        self.asleep.fetch_sub(1, SeqCst);
        drop(sleep);
        done
    }

    fn wait_to_lead(&self) -> Lead<'_> {
        loop {
            // No flush has told an address of 0.
            if let Ok(lead) = self.lead_or_flushed(0) {
                return lead;
            }
        }
    }

    fn look(&self, upto: u64) -> Option<Result<Lead<'_>, Hard>> {
        self.told(upto).map(Err).or_else(|| self.lead().map(Ok))
    }

    // Lets others come before a sync, since it makes durable what all of them have appended: yields until nobody has
    // come in two yields in a row, but four times at most.
    fn gather(&self) {
        let (mut before, mut still) = (self.come.load(SeqCst), 0);
        for _ in 0..4 {
            thread::yield_now();
            let now = self.come.load(SeqCst);
            still = if now == before { still + 1 } else { 0 };
            if still == 2 {
                return;
            }
            before = now;
        }
    }
}

fn locked<T>(lock: &Mutex<T>) -> MutexGuard<'_, T> {
    lock.lock().unwrap_or_else(PoisonError::into_inner)
}

impl Drop for Shared {
    fn drop(&mut self) {
        let idle = self.idle.get_mut().unwrap_or_else(PoisonError::into_inner);
        for handle in idle.ended.iter_mut().chain([&mut idle.own]) {
            handle.call(&[], &mut Asked::new(END));
        }
        self.disk.get_mut().unwrap_or_else(PoisonError::into_inner).leave();
    }
}

/// A log. What is not flushed when it and all its sessions are dropped is not durable: [`Log::flush`] it before.
pub struct Log {
    shared: Arc<Shared>,
    found: LogFound,
}

impl Log {
    /// Begins a log in a folder, or goes on with the one that is there (which is settled as `pgwal run --append`
    /// settles one: what stands behind its end is cleared). The folder is made if it is missing, and locked until the
    /// log and all its sessions are dropped.
    pub fn open(folder: impl AsRef<Path>, setup: Setup) -> Result<Log, Error> {
        let taken = disk::take_folder(folder.as_ref()).map_err(Error::Folder)?;
        let path = folder.as_ref().canonicalize().map_err(Error::Folder)?;
        let Setup { seg_size, sysid, ring_pages, cap_segments, sessions } = setup;
        let setup = calls::Setup { seg_size, sysid, ring_pages, cap_segments, sessions, calls: 0 };
        let mut disk = Disk::new(&path, taken, setup).map_err(|_| Error::Memory)?;
        let (opened, call) = disk.open();
        if let Err(why) = opened {
            let error = unopened_error(why, call);
            disk.leave();
            return Err(error);
        }
        let (found, own) = (LogFound { count: call.count, end: call.end }, Handle::new(call.session));
        let idle = Idle { own, ended: Vec::new() };
        let failed = disk.error.is_some();
        let log = Log { shared: Arc::new(Shared::new(disk, idle)), found };
        if failed { Err(Error::Down) } else { Ok(log) }
    }

    /// What was found when it was opened.
    pub fn found(&self) -> LogFound {
        self.found
    }

    /// A session for one thread.
    pub fn session(&self) -> Result<Session, Error> {
        let mut idle = locked(&self.shared.idle);
        let handle = match idle.ended.pop() {
            Some(handle) => handle,
            None => {
                let mut asked = Asked::new(SPLIT);
                match idle.own.call(&[], &mut asked) {
                    0 => Handle::new(asked.session),
                    answer => return Err(error_of(answer, &asked)),
                }
            }
        };
        Ok(Session { shared: self.shared.clone(), handle })
    }

    /// Makes all that is reserved durable.
    pub fn flush(&self) -> Result<Hard, Error> {
        let mut idle = locked(&self.shared.idle);
        match idle.own.flush(&self.shared, u64::MAX) {
            Err(Error::Unreserved { end }) => idle.own.flush(&self.shared, end),
            answer => answer,
        }
    }
}

/// One thread's way to the log.
pub struct Session {
    shared: Arc<Shared>,
    handle: Handle,
}

impl Session {
    /// Appends a record by one try, which waits for nobody.
    pub fn try_append(&mut self, record: Record) -> Result<Place, Error> {
        self.append_once(record).map_err(|(answer, asked)| error_of(answer, &asked))
    }

    fn append_once(&mut self, record: Record) -> Result<Place, (u32, Asked)> {
        for block in record.blocks {
            self.handle.add_block(block)?;
        }
        let mut asked = Asked::new(APPEND);
        (asked.xid, asked.rmid, asked.info) = (record.xid, record.rmid, record.info);
        match self.handle.call(record.data, &mut asked) {
            0 => Ok(Place { start: asked.start, end: asked.end }),
            answer => Err((answer, asked)),
        }
    }

    /// Appends a record, and waits for its place.
    pub fn append(&mut self, record: Record) -> Result<Place, Error> {
        loop {
            match self.append_once(record) {
                Ok(place) => return Ok(place),
                // Where another thread makes calls, it tries again meanwhile.
                Err((QUEUE, _)) => match self.shared.lead() {
                    Some(mut lead) => lead.make_calls()?,
                    None => thread::yield_now(),
                },
                Err((BUSY, _)) => thread::yield_now(),
                Err((answer, asked)) => return Err(error_of(answer, &asked)),
            }
        }
    }

    /// Makes all below an address durable.
    pub fn flush(&mut self, upto: u64) -> Result<Hard, Error> {
        self.handle.flush(&self.shared, upto)
    }

    /// Appends a record, and counts it as answered: it is durable once anybody has flushed its end, as `write_behind`
    /// does.
    pub fn commit_async(&mut self, record: Record) -> Result<Place, Error> {
        let place = self.append(record)?;
        loop {
            let mut asked = Asked::new(RAISE);
            match self.handle.call(&[], &mut asked) {
                0 => return Ok(place),
                BUSY => thread::yield_now(),
                answer => return Err(error_of(answer, &asked)),
            }
        }
    }

    /// Makes durable what was answered ahead of the disk, but for what comes in meanwhile: whole pages first, so that
    /// a call behind it may find the last one's rest. How soon a commit becomes durable is up to the thread that
    /// calls it.
    pub fn write_behind(&mut self) -> Result<Hard, Error> {
        let upto = self.handle.write_behind(&self.shared)?;
        self.flush(upto)
    }

    /// Ends the segment, and makes all of it durable: the next record stands in the next one. Where the log stands at a
    /// segment's start already, that is told as start and end.
    pub fn switch(&mut self) -> Result<Sealed, Error> {
        let Place { start, end } = self.end_segment()?;
        let Hard { moment, .. } = self.flush(end)?;
        Ok(Sealed { start, end, moment })
    }

    // Behind a call that failed it is tried on until the log tells it, so that no lock stays held that others wait for.
    fn end_segment(&mut self) -> Result<Place, Error> {
        let mut lead = self.shared.wait_to_lead();
        loop {
            let mut asked = Asked::new(SWITCH);
            match self.handle.call(&[], &mut asked) {
                0 => return Ok(Place { start: asked.start, end: asked.end }),
                BUSY | QUEUE => drop(lead.make_calls()),
                answer => return Err(error_of(answer, &asked)),
            }
            thread::yield_now();
        }
    }

    /// Appends a record, and makes it durable.
    pub fn commit(&mut self, record: Record) -> Result<Sealed, Error> {
        let Place { start, end } = self.append(record)?;
        let Hard { moment, .. } = self.flush(end)?;
        Ok(Sealed { start, end, moment })
    }
}

impl Drop for Session {
    fn drop(&mut self) {
        let handle = Handle::new(self.handle.session);
        locked(&self.shared.idle).ended.push(handle);
    }
}
