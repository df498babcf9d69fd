//! The disk of files: it takes the log's calls from the queue, makes them, and acknowledges them.

use crate::calls::{
    ACKNOWLEDGE, CREATE, DiskAsked, DiskMade, FAIL, HAND_IN_FIRST, LEAVE, OPEN, SYNC, Setup, TAKE, WRITE,
    pgwal_disk_call, pgwal_make_disk,
};
use std::fs::{self, File, OpenOptions};
use std::io::{self, ErrorKind, Write};
use std::os::unix::fs::{DirBuilderExt, FileExt, OpenOptionsExt};
use std::path::{Path, PathBuf};

pub struct Disk {
    handle: *mut u8,
    path: PathBuf,
    folder: File,
    // The segment that was written last. It stays open until another one is written: the system
    // tells a failed write to who had the file open.
    written: Option<(u64, File)>,
    call: Box<DiskAsked>,
    pub error: Option<io::Error>,
}

// A handle may go from thread to thread where one call at a time is made with it, as `&mut` has it.
unsafe impl Send for Disk {}

pub fn segment_name(segment: u64, seg_size: u64) -> String {
    let in_part = (1 << 32) / seg_size;
    format!("{:08X}{:08X}{:08X}", 1, segment / in_part, segment % in_part)
}

fn is_segment(name: &[u8]) -> bool {
    name.len() == 24 && name.iter().all(|c| matches!(c, b'0'..=b'9' | b'A'..=b'F'))
}

/// Makes the folder where it is missing, and locks it.
pub fn take_folder(path: &Path) -> io::Result<File> {
    match fs::DirBuilder::new().mode(0o700).create(path) {
        Err(e) if e.kind() != ErrorKind::AlreadyExists => return Err(e),
        _ => {}
    }
    let folder = File::open(path.join("."))?;
    folder.try_lock().map_err(|_| io::Error::from(ErrorKind::WouldBlock))?;
    folder.sync_all()?;
    File::open(path.join(".."))?.sync_all()?;
    Ok(folder)
}

/// Why a disk's log was not opened.
pub enum Unopened {
    Answer(u32),
    /// The folder has segments that are not from the first one on, or of another size.
    Others,
    File(io::Error),
}

impl From<io::Error> for Unopened {
    fn from(e: io::Error) -> Unopened {
        Unopened::File(e)
    }
}

const DONE: u32 = 0;
const MEMORY: u32 = 5;
const SETUP: u32 = 6;
const QUEUE: u32 = 13;
const WANTED: u32 = 14;

impl Disk {
    /// A disk without a log yet. The path is a whole one, which no change of the program's own folder changes.
    pub fn new(path: &Path, folder: File, setup: Setup) -> Result<Disk, Unopened> {
        let mut made = DiskMade { disk: std::ptr::null_mut() };
        if unsafe { pgwal_make_disk(&mut made) } != DONE {
            return Err(Unopened::Answer(MEMORY));
        }
        let call = DiskAsked {
            asked: 0, kind: 0, count: 0, segment: 0, seg_size: 0, page: 0, bytes: [0; 8192], there: 0, damage: 0,
            end: 0, setup, session: std::ptr::null_mut(),
        };
        let (handle, path, call) = (made.disk, path.to_path_buf(), Box::new(call));
        Ok(Disk { handle, path, folder, written: None, call, error: None })
    }

    /// Opens the log that is in the folder, which all lies in memory meanwhile, and settles it. What was found of it,
    /// or why it is not opened, stands in the call that comes back.
    pub fn open(&mut self) -> (Result<(), Unopened>, &DiskAsked) {
        let opened = self.hand_in_folder().and_then(|()| self.open_handed());
        if opened.is_ok() {
            let DiskAsked { count, end, .. } = *self.call;
            while self.make_calls() {}
            (self.call.count, self.call.end) = (count, end);
        }
        (opened, &self.call)
    }

    // What is wanted beside all that was handed in is not there.
    fn open_handed(&mut self) -> Result<(), Unopened> {
        loop {
            let room = self.call.setup.calls;
            match self.answer(OPEN) {
                DONE => return Ok(()),
                WANTED => self.hand_in(None)?,
                QUEUE if room < u32::MAX / 2 => self.call.setup.calls = (2 * room).max(256),
                answer => return Err(Unopened::Answer(answer)),
            }
        }
    }

    // Hands in all segments from 1 on, and that no other one is there.
    fn hand_in_folder(&mut self) -> Result<(), Unopened> {
        let size = self.call.setup.seg_size;
        if !size.is_power_of_two() || !(1 << 20..=1 << 30).contains(&size) {
            return Err(Unopened::Answer(SETUP));
        }
        let mut count = 0;
        while count <= u64::from(self.call.setup.cap_segments) && self.hand_in_segment(count + 1)? {
            count += 1;
        }
        let mut names = 0;
        for entry in fs::read_dir(&self.path)? {
            names += u64::from(is_segment(entry?.file_name().as_encoded_bytes()));
        }
        if names == count { Ok(()) } else { Err(Unopened::Others) }
    }

    // Hands in all pages of a segment, or that it is not there: then it answers false.
    fn hand_in_segment(&mut self, segment: u64) -> Result<bool, Unopened> {
        let size = self.call.setup.seg_size;
        (self.call.segment, self.call.page) = (segment, 0);
        let name = self.path.join(segment_name(segment, size));
        match fs::metadata(&name) {
            Err(e) if e.kind() == ErrorKind::NotFound => {
                self.hand_in(None)?;
                return Ok(false);
            }
            about if !about.as_ref().is_ok_and(|about| about.is_file() && about.len() == size) => {
                about?;
                return Err(Unopened::Others);
            }
            _ => {}
        }
        let file = File::open(name)?;
        for page in 0..size / 8192 {
            self.call.page = page;
            self.hand_in(Some(&file))?;
        }
        Ok(true)
    }

    // Hands in the page of the call, as its file has it.
    fn hand_in(&mut self, file: Option<&File>) -> Result<(), Unopened> {
        if let Some(file) = file {
            file.read_exact_at(&mut self.call.bytes, self.call.page * 8192)?;
        }
        self.call.there = u32::from(file.is_some());
        match self.answer(HAND_IN_FIRST) {
            DONE => Ok(()),
            answer => Err(Unopened::Answer(answer)),
        }
    }

    fn answer(&mut self, asked: u32) -> u32 {
        self.call.asked = asked;
        unsafe { pgwal_disk_call(self.handle, &mut *self.call) }
    }

    fn ask(&mut self, asked: u32) -> bool {
        self.answer(asked) == DONE
    }

    /// Makes the calls that are queued, in order, and acknowledges each: up to a sync, with which a flush ends, so that
    /// nobody makes calls for ever while others flush. Answers whether it came to one.
    pub fn make_calls(&mut self) -> bool {
        while self.ask(TAKE) {
            if let Err(e) = self.make_call() {
                self.error = Some(e);
                self.ask(FAIL);
                return false;
            }
            self.ask(ACKNOWLEDGE);
            if self.call.kind == SYNC {
                return true;
            }
        }
        false
    }

    /// What is left in the queue is let go.
    pub fn leave(&mut self) {
        self.ask(LEAVE);
    }

    fn make_call(&mut self) -> io::Result<()> {
        if self.call.kind == CREATE {
            return self.make_segment();
        }
        let segment = self.call.segment;
        if self.written.as_ref().is_none_or(|(at, _)| *at != segment) {
            let name = self.path.join(segment_name(segment, self.call.seg_size));
            self.written = Some((segment, OpenOptions::new().read(true).write(true).open(name)?));
        }
        let Some((_, file)) = &self.written else {
            return Err(ErrorKind::NotFound.into());
        };
        match self.call.kind {
            WRITE => file.write_all_at(&self.call.bytes, self.call.page * 8192),
            _ => file.sync_data(),
        }
    }

    // A segment of zeros: under another name, filled and synced, then linked to its own; the folder
    // is synced behind it. A segment that is there is left.
    fn make_segment(&mut self) -> io::Result<()> {
        let temporary = self.path.join(format!("xlogtemp.{}.0", std::process::id()));
        let _ = fs::remove_file(&temporary);
        let how = OpenOptions::new().read(true).write(true).create_new(true).mode(0o600).clone();
        let mut file = how.open(&temporary)?;
        let name = self.path.join(segment_name(self.call.segment, self.call.seg_size));
        let made = (0..self.call.seg_size / 65536)
            .try_for_each(|_| file.write_all(&[0; 65536]))
            .and_then(|()| file.sync_all())
            .and_then(|()| fs::hard_link(&temporary, name));
        let removed = fs::remove_file(&temporary);
        made.and(removed)?;
        self.folder.sync_all()?;
        self.written = Some((self.call.segment, file));
        Ok(())
    }
}
