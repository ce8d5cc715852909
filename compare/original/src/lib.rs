//! The Rust that is replaced, as it stands, with stubs for what it calls of files that are not given, and hooks to set and read all that it keeps.
#![allow(dead_code, unused, static_mut_refs, unexpected_cfgs)]
include!(concat!(env!("OUT_DIR"), "/mods.rs"));

mod medium;
mod stubs;
pub(crate) use stubs::{calbackup, clock, csvlog, dlog, fastlog, fatren, hy3131, ident, msc, screenshot, upload, wdt};

/// vdisk.rs with the shown sector given by the caller in the place of `gen_sector`.
mod vdisk {
    pub(crate) use crate::vdisk_rs::*;

    pub(crate) fn gen_sector(lba: u32, buf: &mut [u8]) -> bool {
        if lba >= TOTAL {
            return false;
        }
        buf[..512].copy_from_slice(unsafe { &crate::SHOWN });
        true
    }
}

use bindings::{File, Sector, State};

static mut SHOWN: Sector = [0; 512];

/// What a write answers: taken, and if it isn't, the error and (in `numbered`) document 01's number.
#[derive(Clone, Copy, PartialEq, Eq, Debug)]
pub struct Answer {
    pub taken: bool,
    pub err: u8,
    pub number: u8,
}

pub fn write(lba: u32, shown: &Sector, written: &Sector, busy: bool) -> Answer {
    unsafe { SHOWN = *shown };
    stubs::set_busy(busy);
    stubs::set_number(0);
    let taken = vwrite::write(lba, written);
    // `ok_or` makes its error before it is needed, so the number counts only of a refusal.
    Answer { taken, err: vwrite::last_error(), number: if taken { 0 } else { stubs::number() } }
}

/// The sector that vdisk.rs itself shows at `lba`.
pub fn generated(lba: u32) -> Sector {
    let mut b = [0; 512];
    vdisk_rs::gen_sector(lba, &mut b);
    b
}

pub fn set_table(files: &[File], first: u32) {
    vdisk_rs::hook_set_table(files, first);
}

pub fn table() -> Vec<File> {
    vdisk_rs::hook_table()
}

pub fn state() -> State {
    vwrite::hook_state(vdisk_rs::hook_first())
}

pub fn set_state(s: &State) {
    vwrite::hook_set_state(s);
    vdisk_rs::hook_set_first(s.first);
}

/// The medium, and how much of it the calls are lent.
pub fn set_medium(fat: &[u16], area: &[u8]) {
    medium::set_medium(fat, area);
}

pub fn lend(entries: usize, bytes: usize) {
    medium::lend(entries, bytes);
}

pub fn area() -> &'static [u8] {
    medium::area()
}

pub fn set_area(at: usize, bytes: &[u8]) {
    medium::set_area(at, bytes);
}

pub fn set_entry(i: usize, v: u16) {
    medium::set_entry(i, v);
}

pub fn staged_read(c: u32, s: u32, out: &mut Sector) -> bool {
    vwrite::staged_read(c, s, out)
}

pub fn pair(c: u32) -> Option<u16> {
    vwrite::pair(c)
}

pub fn root_rec(slot: usize) -> Option<[u8; 32]> {
    vwrite::root_rec(slot)
}

pub fn boot_state() -> u8 {
    vwrite::boot_state()
}

pub fn fat1() -> u16 {
    vwrite::fat1()
}

pub fn frozen(mounted: bool) -> bool {
    stubs::set_mounted(mounted);
    vwrite::frozen()
}

pub fn complete(start: u32, size: u32) -> Option<([u8; bindings::NST], usize)> {
    vwrite::hook_complete(start, size)
}

/// The body check: none where the chain isn't complete.
pub fn body(start: u32, size: u32) -> Option<bool> {
    vwrite::hook_body(start, size)
}

pub fn crc16(c: u16, data: &[u8]) -> u16 {
    vwrite::hook_crc16(c, data)
}

pub fn decode_block(p: &mut [u8]) -> bool {
    vwrite::hook_decode(p)
}

pub fn nclus(size: u32) -> u32 {
    vdisk_rs::nclus(size)
}

/// 0 Reserved, 1 Fixed, 2 a file and its row, 3 Free.
pub fn owner(c: u32) -> (u8, usize) {
    match vdisk_rs::owner(c) {
        vdisk_rs::Owner::Reserved => (0, 0),
        vdisk_rs::Owner::Fixed => (1, 0),
        vdisk_rs::Owner::Dyn(j) => (2, j),
        vdisk_rs::Owner::Free => (3, 0),
    }
}

pub fn dir_kind(c: u32) -> Option<usize> {
    vdisk_rs::dir_kind(c)
}

pub fn poll(clock: u64, mounted: bool) {
    stubs::set_mounted(mounted);
    vwrite::poll(clock, false);
}

pub fn release() -> bool {
    vwrite::release()
}

pub fn release_all(reset: bool) -> bool {
    vwrite::release_all(reset)
}

pub fn vdisk_on_bus_reset() {
    vdisk_rs::on_bus_reset();
}

pub fn vwrite_on_bus_reset() {
    vwrite::on_bus_reset();
}

pub fn set_read_only(on: bool) {
    vwrite::set_read_only(on);
}

pub fn read_only() -> bool {
    vwrite::read_only()
}

pub fn read_only_pending() -> bool {
    vwrite::read_only_pending()
}

/// `poll` marks a deleted file so.
pub fn report_gone(row: usize) {
    vdisk_rs::entries()[row].id |= vdisk_rs::T_SRC;
}

/// The file that `poll` deletes next, were staging off.
pub fn handed() -> Option<usize> {
    let both = vdisk_rs::T_DIR | vdisk_rs::T_FAT;
    vdisk_rs::entries().iter().position(|e| e.id & both == both && e.id & vdisk_rs::T_SRC == 0)
}

/// How many releases ran to their end since it was last asked: each makes the listing stale.
pub fn take_stale() -> u32 {
    stubs::take_stale()
}
