//! The functions that the static libraries define, word for word as include/vwrite.h declares them.
use crate::{File, State};

#[repr(C)]
pub struct Own {
    pub owner: u8,
    pub row: u64,
}

#[repr(C)]
pub struct End {
    pub ended: u8,
    pub had: bool,
}

#[repr(C)]
pub struct Handed {
    pub found: bool,
    pub row: u64,
}

/// What the calls since a file's last start, or release that left it unmarked, held of it.
#[repr(C)]
#[derive(Clone, Copy, Debug, PartialEq, Eq, Default)]
pub struct Reason {
    pub turned: bool,
    pub zeroed: bool,
    pub moved: bool,
    pub named: bool,
    pub gone: bool,
}

#[rustfmt::skip]
extern "C" {
    pub fn vwrite_write(
        w: *mut State, files: *mut File, nfiles: u64, lba: u32, shown: *const u8, nshown: u64, written: *const u8, nwritten: u64, busy: bool,
        fat: *const u16, nfat: u64, area: *mut u8, narea: u64,
    ) -> u8;
    pub fn vwrite_staged_read(
        w: *const State, fat: *const u16, nfat: u64, area: *const u8, narea: u64, c: u32, s: u32, out: *mut u8, nout: u64, staged: *mut bool,
    ) -> u8;
    pub fn vwrite_pair(w: *const State, c: u32, v: *mut u16) -> bool;
    pub fn vwrite_root_rec(w: *const State, slot: u64, e: *mut u8) -> bool;
    pub fn vwrite_boot_state(w: *const State) -> u8;
    pub fn vwrite_fat1(w: *const State) -> u16;
    pub fn vwrite_frozen(w: *const State, mounted: bool) -> bool;
    pub fn vwrite_complete(w: *const State, start: u32, size: u32, slots: *mut u8, n: *mut u64) -> bool;
    pub fn vwrite_body_check(
        w: *const State, fat: *const u16, nfat: u64, area: *const u8, narea: u64, start: u32, size: u32, valid: *mut bool,
    ) -> u8;
    pub fn vwrite_crc16(c: u16, bytes: *const u8, n: u64) -> u16;
    pub fn vwrite_strict_name(w: *const State, sector: *const u8, nsector: u64, slot: u64, housekeeping: *mut bool) -> u8;
    pub fn vwrite_owner(files: *const File, nfiles: u64, first: u32, c: u32, own: *mut Own) -> u8;
    pub fn vwrite_dir_kind(c: u32, kind: *mut u16) -> bool;
    pub fn vwrite_nclus(size: u32) -> u32;

    pub fn vwrite_start(w: *mut State, files: *const File, nfiles: u64, first: u32) -> u8;
    pub fn vwrite_poll(
        w: *mut State, files: *mut File, nfiles: u64, clock: u64, mounted: bool, fat: *const u16, nfat: u64, area: *const u8, narea: u64,
        end: *mut End,
    ) -> u8;
    pub fn vwrite_release(
        w: *mut State, files: *mut File, nfiles: u64, fat: *const u16, nfat: u64, area: *const u8, narea: u64, end: *mut End,
    ) -> u8;
    pub fn vwrite_release_all(
        w: *mut State, files: *mut File, nfiles: u64, reset: bool, fat: *const u16, nfat: u64, area: *const u8, narea: u64, end: *mut End,
    ) -> u8;
    pub fn vdisk_on_bus_reset(
        w: *mut State, files: *mut File, nfiles: u64, fat: *const u16, nfat: u64, area: *const u8, narea: u64, end: *mut End,
    ) -> u8;
    pub fn vwrite_on_bus_reset(w: *mut State);
    pub fn vwrite_set_read_only(w: *mut State, on: bool);
    pub fn vwrite_read_only(w: *const State) -> bool;
    pub fn vwrite_read_only_pending(w: *const State) -> bool;
    pub fn vwrite_find_handed(files: *const File, nfiles: u64, handed: *mut Handed) -> u8;
    pub fn vwrite_report_gone(files: *mut File, nfiles: u64, row: u64) -> u8;

    pub fn vwrite_named(w: *const State, fat: *const u16, nfat: u64, area: *const u8, narea: u64, start: u16, size: u32) -> bool;
    pub fn vwrite_after_write(
        r: *mut Reason, id: u16, slot: u16, start: u16, size: u32, number: u8, lba: u32, shown: *const u8, nshown: u64, written: *const u8,
        nwritten: u64, named: bool, staged: bool,
    );
    pub fn vwrite_after_end(r: *mut Reason, ended: u8, id: u16, named: bool);
    pub fn vwrite_after_gone(r: *mut Reason, number: u8, row: u64, j: u64);
}
