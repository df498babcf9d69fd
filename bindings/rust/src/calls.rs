//! The calls of libpgwal_c.a, as the header of C has them.

#[derive(Clone, Copy)]
#[repr(C)]
pub struct Setup {
    pub seg_size: u64,
    pub sysid: u64,
    pub ring_pages: u32,
    pub cap_segments: u32,
    pub sessions: u32,
    pub calls: u32,
}

pub const SPLIT: u32 = 0;
pub const APPEND: u32 = 1;
pub const FLUSH: u32 = 2;
pub const END: u32 = 3;
pub const ADD_BLOCK: u32 = 4;
pub const ADD_IMAGE: u32 = 5;
pub const RAISE: u32 = 6;
pub const WRITE_BEHIND: u32 = 7;
pub const SWITCH: u32 = 8;

#[repr(C)]
#[derive(Clone, Copy, Default)]
pub struct BlockAsked {
    pub id: u8,
    pub fork: u8,
    pub will_init: u8,
    pub has_image: u8,
    pub apply: u8,
    pub hole_offset: u16,
    pub hole_len: u16,
    pub spc: u32,
    pub db: u32,
    pub rel: u32,
    pub blk: u32,
    pub len: u64,
    pub image_len: u64,
}

#[repr(C)]
pub struct Asked {
    pub asked: u32,
    pub xid: u32,
    pub rmid: u8,
    pub info: u8,
    pub block: BlockAsked,
    pub upto: u64,
    pub moment: u64,
    pub start: u64,
    pub end: u64,
    pub detail: u64,
    pub session: *mut u8,
}

impl Asked {
    pub fn new(asked: u32) -> Asked {
        let session = std::ptr::null_mut();
        let block = BlockAsked::default();
        Asked { asked, xid: 0, rmid: 0, info: 0, block, upto: 0, moment: 0, start: 0, end: 0, detail: 0, session }
    }
}

pub const TAKE: u32 = 0;
pub const ACKNOWLEDGE: u32 = 1;
pub const FAIL: u32 = 2;
pub const LEAVE: u32 = 3;
pub const HAND_IN_FIRST: u32 = 4;
pub const OPEN: u32 = 5;

pub const CREATE: u32 = 0;
pub const WRITE: u32 = 1;
pub const SYNC: u32 = 2;

#[repr(C)]
pub struct DiskAsked {
    pub asked: u32,
    pub kind: u32,
    pub count: u64,
    pub segment: u64,
    pub seg_size: u64,
    pub page: u64,
    pub bytes: [u8; 8192],
    pub there: u32,
    pub damage: u32,
    pub end: u64,
    pub setup: Setup,
    pub session: *mut u8,
}

#[repr(C)]
pub struct DiskMade {
    pub disk: *mut u8,
}

pub const BEGIN: u32 = 0;
pub const NEXT: u32 = 1;
pub const HAND_IN: u32 = 2;
pub const DATA: u32 = 3;
pub const CLOSE: u32 = 4;
pub const TELL_BLOCK: u32 = 5;
pub const BLOCK_DATA: u32 = 6;
pub const IMAGE: u32 = 7;

#[repr(C)]
pub struct ReaderAsked {
    pub asked: u32,
    pub xid: u32,
    pub rmid: u8,
    pub info: u8,
    pub there: u8,
    pub total: u32,
    pub damage: u32,
    pub blocks: u64,
    pub index: u64,
    pub block: BlockAsked,
    pub seg_size: u64,
    pub start: u64,
    pub end: u64,
    pub prev: u64,
    pub segment: u64,
    pub page: u32,
    pub len: u64,
    pub offset: u64,
    pub bytes: [u8; 8192],
}

#[repr(C)]
pub struct Made {
    pub reader: *mut u8,
}

unsafe extern "C" {
    pub fn pgwal_make_reader(made: *mut Made) -> u32;
    pub fn pgwal_reader_call(reader: *mut u8, asked: *mut ReaderAsked) -> u32;
    pub fn pgwal_make_disk(made: *mut DiskMade) -> u32;
    pub fn pgwal_session_call(session: *mut u8, data: *const u8, len: usize, asked: *mut Asked) -> u32;
    pub fn pgwal_disk_call(disk: *mut u8, asked: *mut DiskAsked) -> u32;
}
