//! `include/vwrite.h` for Rust: its structs, every field of which is compared by equality, and its calls.
pub mod calls;
mod linked;

/// Sizes and offsets as the header has them.
mod layout {
    use std::mem::{align_of, offset_of, size_of};
    include!(concat!(env!("OUT_DIR"), "/layout.rs"));
}

pub const NREC: usize = 10;
pub const NPAIR: usize = 40;
pub const NST: usize = 28;
pub const BPC: usize = 8;
pub const MAX_VF: usize = 400;

/// Sectors of the drive, and where its parts begin.
pub const TOTAL: u32 = 4_160_541;
pub const FAT_START: u32 = 1;
pub const FAT_SECS: u32 = 254;
pub const ROOT_START: u32 = 509;
pub const DATA_START: u32 = 541;
pub const SPC: u32 = 64;
pub const CB: u32 = 32_768;
pub const LAST_CLUSTER: u32 = 65_001;

pub type Sector = [u8; 512];

#[repr(C)]
#[derive(Clone, Copy, PartialEq, Eq, Debug, Default)]
pub struct File {
    pub id: u16,
    pub slot: u16,
    pub vstart: u16,
    pub src: u16,
    pub ssize: u32,
    pub vsize: u32,
}

#[repr(C)]
#[derive(Clone, Copy, PartialEq, Eq, Debug, Default)]
pub struct Rec {
    pub slot: u16,
    pub e: [u8; 32],
}

#[repr(C)]
#[derive(Clone, Copy, PartialEq, Eq, Debug, Default)]
pub struct Pair {
    pub c: u16,
    pub v: u16,
}

#[repr(C)]
#[derive(Clone, Copy, PartialEq, Eq, Debug, Default)]
pub struct St {
    pub c: u16,
    pub sealed: bool,
    pub ro: u8,
    pub map: u64,
    pub blk: [u16; BPC],
}

#[repr(C)]
#[derive(Clone, Copy, PartialEq, Eq, Debug, Default)]
pub struct Done {
    pub slot: u16,
    pub start: u16,
    pub size: u32,
    pub ver: u32,
}

#[repr(C)]
#[derive(Clone, Copy, PartialEq, Eq, Debug, Default)]
pub struct Stats {
    pub ok: u32,
    pub refused: u32,
    pub busy: u32,
    pub last_refused: u32,
    pub deleted: u16,
    pub fw_ok: u16,
    pub fw_bad: u16,
}

#[repr(C)]
#[derive(Clone, Copy, PartialEq, Eq, Debug)]
pub struct State {
    pub rw: bool,
    pub want_rw: bool,
    pub boot: u8,
    pub fat1: u32,
    pub rec: [Rec; NREC],
    pub pair: [Pair; NPAIR],
    pub st: [St; NST],
    pub session: bool,
    pub locks: bool,
    pub last: u64,
    pub now_ms: u64,
    pub staging: bool,
    pub stage_t: u64,
    pub hint: u32,
    pub err: u8,
    pub fw: u8,
    pub done: Done,
    pub ver: u32,
    pub end_at: u64,
    pub parks: u8,
    pub purged: bool,
    pub purge: bool,
    pub n: Stats,
    pub first: u32,
}

impl State {
    pub fn new(first: u32) -> State {
        State {
            rw: false,
            want_rw: false,
            boot: 0,
            fat1: 0,
            rec: [Rec::default(); NREC],
            pair: [Pair::default(); NPAIR],
            st: [St::default(); NST],
            session: false,
            locks: false,
            last: 0,
            now_ms: 0,
            staging: false,
            stage_t: 0,
            hint: 0,
            err: 0,
            fw: 0,
            done: Done::default(),
            ver: 0,
            end_at: 0,
            parks: 0,
            purged: false,
            purge: false,
            n: Stats::default(),
            first,
        }
    }
}
