//! The calls of include/vwrite.h, with slices, and with what each answers: beside its number what it writes through its last parameters.
use crate::linked;
use crate::{File, State, NST};

pub use linked::Reason;

#[derive(Clone, Copy, Debug, PartialEq, Eq)]
pub struct Staged {
    pub no: u8,
    pub staged: bool,
}

#[derive(Clone, Copy, Debug, PartialEq, Eq)]
pub struct PairAnswer {
    pub found: bool,
    pub v: u16,
}

#[derive(Clone, Copy, Debug, PartialEq, Eq)]
pub struct RootRecord {
    pub found: bool,
    pub e: [u8; 32],
}

#[derive(Clone, Copy, Debug, PartialEq, Eq)]
pub struct Chain {
    pub found: bool,
    pub slots: [u8; NST],
    pub n: usize,
}

#[derive(Clone, Copy, Debug, PartialEq, Eq)]
pub struct Strict {
    pub no: u8,
    pub housekeeping: bool,
}

#[derive(Clone, Copy, Debug, PartialEq, Eq)]
pub struct Own {
    pub no: u8,
    pub owner: u8,
    pub row: usize,
}

#[derive(Clone, Copy, Debug, PartialEq, Eq)]
pub struct Dir {
    pub found: bool,
    pub kind: u16,
}

#[derive(Clone, Copy, Debug, PartialEq, Eq)]
pub struct End {
    pub no: u8,
    pub ended: u8,
    pub had: bool,
}

#[derive(Clone, Copy, Debug, PartialEq, Eq)]
pub struct Handed {
    pub no: u8,
    pub found: bool,
    pub row: usize,
}

#[derive(Clone, Copy, Debug, PartialEq, Eq)]
pub struct Body {
    pub no: u8,
    pub valid: bool,
}

fn len<T>(s: &[T]) -> u64 {
    s.len() as u64
}

#[rustfmt::skip]
pub fn vwrite_write(w: &mut State, files: &mut [File], lba: u32, shown: &[u8], written: &[u8], busy: bool, fat: &[u16], area: &mut [u8]) -> u8 {
    unsafe {
        linked::vwrite_write(
            w, files.as_mut_ptr(), len(files), lba, shown.as_ptr(), len(shown), written.as_ptr(), len(written), busy, fat.as_ptr(), len(fat),
            area.as_mut_ptr(), len(area),
        )
    }
}

pub fn vwrite_staged_read(w: &State, fat: &[u16], area: &[u8], c: u32, s: u32, out: &mut [u8]) -> Staged {
    let mut staged = false;
    let (to, n) = (out.as_mut_ptr(), len(out));
    let no = unsafe { linked::vwrite_staged_read(w, fat.as_ptr(), len(fat), area.as_ptr(), len(area), c, s, to, n, &mut staged) };
    Staged { no, staged }
}

pub fn vwrite_pair(w: &State, c: u32) -> PairAnswer {
    let mut v = 0;
    let found = unsafe { linked::vwrite_pair(w, c, &mut v) };
    PairAnswer { found, v }
}

pub fn vwrite_root_rec(w: &State, slot: usize) -> RootRecord {
    let mut e = [0; 32];
    let found = unsafe { linked::vwrite_root_rec(w, slot as u64, e.as_mut_ptr()) };
    RootRecord { found, e }
}

pub fn vwrite_boot_state(w: &State) -> u8 {
    unsafe { linked::vwrite_boot_state(w) }
}

pub fn vwrite_fat1(w: &State) -> u16 {
    unsafe { linked::vwrite_fat1(w) }
}

pub fn vwrite_frozen(w: &State, mounted: bool) -> bool {
    unsafe { linked::vwrite_frozen(w, mounted) }
}

pub fn vwrite_complete(w: &State, start: u32, size: u32) -> Chain {
    let (mut slots, mut n) = ([0; NST], 0);
    let found = unsafe { linked::vwrite_complete(w, start, size, slots.as_mut_ptr(), &mut n) };
    Chain { found, slots, n: n as usize }
}

pub fn vwrite_body_check(w: &State, fat: &[u16], area: &[u8], start: u32, size: u32) -> Body {
    let mut valid = false;
    let no = unsafe { linked::vwrite_body_check(w, fat.as_ptr(), len(fat), area.as_ptr(), len(area), start, size, &mut valid) };
    Body { no, valid }
}

pub fn vwrite_crc16(c: u16, bytes: &[u8]) -> u16 {
    unsafe { linked::vwrite_crc16(c, bytes.as_ptr(), len(bytes)) }
}

pub fn vwrite_strict_name(w: &State, sector: &[u8], slot: usize) -> Strict {
    let mut housekeeping = false;
    let no = unsafe { linked::vwrite_strict_name(w, sector.as_ptr(), len(sector), slot as u64, &mut housekeeping) };
    Strict { no, housekeeping }
}

pub fn vwrite_owner(files: &[File], first: u32, c: u32) -> Own {
    let mut own = linked::Own { owner: 0, row: 0 };
    let no = unsafe { linked::vwrite_owner(files.as_ptr(), len(files), first, c, &mut own) };
    Own { no, owner: own.owner, row: own.row as usize }
}

pub fn vwrite_dir_kind(c: u32) -> Dir {
    let mut kind = 0;
    let found = unsafe { linked::vwrite_dir_kind(c, &mut kind) };
    Dir { found, kind }
}

pub fn vwrite_nclus(size: u32) -> u32 {
    unsafe { linked::vwrite_nclus(size) }
}

pub fn vwrite_start(w: &mut State, files: &[File], first: u32) -> u8 {
    unsafe { linked::vwrite_start(w, files.as_ptr(), len(files), first) }
}

/// What a call that may end the session answers, and writes.
fn ended(call: impl FnOnce(&mut linked::End) -> u8) -> End {
    let mut end = linked::End { ended: 0, had: false };
    let no = call(&mut end);
    End { no, ended: end.ended, had: end.had }
}

pub fn vwrite_poll(w: &mut State, files: &mut [File], clock: u64, mounted: bool, fat: &[u16], area: &[u8]) -> End {
    let (rows, n) = (files.as_mut_ptr(), len(files));
    ended(|end| unsafe { linked::vwrite_poll(w, rows, n, clock, mounted, fat.as_ptr(), len(fat), area.as_ptr(), len(area), end) })
}

pub fn vwrite_release(w: &mut State, files: &mut [File], fat: &[u16], area: &[u8]) -> End {
    let (rows, n) = (files.as_mut_ptr(), len(files));
    ended(|end| unsafe { linked::vwrite_release(w, rows, n, fat.as_ptr(), len(fat), area.as_ptr(), len(area), end) })
}

pub fn vwrite_release_all(w: &mut State, files: &mut [File], reset: bool, fat: &[u16], area: &[u8]) -> End {
    let (rows, n) = (files.as_mut_ptr(), len(files));
    ended(|end| unsafe { linked::vwrite_release_all(w, rows, n, reset, fat.as_ptr(), len(fat), area.as_ptr(), len(area), end) })
}

pub fn vdisk_on_bus_reset(w: &mut State, files: &mut [File], fat: &[u16], area: &[u8]) -> End {
    let (rows, n) = (files.as_mut_ptr(), len(files));
    ended(|end| unsafe { linked::vdisk_on_bus_reset(w, rows, n, fat.as_ptr(), len(fat), area.as_ptr(), len(area), end) })
}

pub fn vwrite_on_bus_reset(w: &mut State) {
    unsafe { linked::vwrite_on_bus_reset(w) }
}

pub fn vwrite_set_read_only(w: &mut State, on: bool) {
    unsafe { linked::vwrite_set_read_only(w, on) }
}

pub fn vwrite_read_only(w: &State) -> bool {
    unsafe { linked::vwrite_read_only(w) }
}

pub fn vwrite_read_only_pending(w: &State) -> bool {
    unsafe { linked::vwrite_read_only_pending(w) }
}

pub fn vwrite_find_handed(files: &[File]) -> Handed {
    let mut handed = linked::Handed { found: false, row: 0 };
    let no = unsafe { linked::vwrite_find_handed(files.as_ptr(), len(files), &mut handed) };
    Handed { no, found: handed.found, row: handed.row as usize }
}

pub fn vwrite_report_gone(files: &mut [File], row: usize) -> u8 {
    unsafe { linked::vwrite_report_gone(files.as_mut_ptr(), len(files), row as u64) }
}

pub fn vwrite_named(w: &State, fat: &[u16], area: &[u8], start: u16, size: u32) -> bool {
    unsafe { linked::vwrite_named(w, fat.as_ptr(), len(fat), area.as_ptr(), len(area), start, size) }
}

/// After a write of `written` over `shown` at `lba`, which answered `number`.
#[rustfmt::skip]
pub fn vwrite_after_write(mut r: Reason, f: &File, number: u8, lba: u32, shown: &[u8], written: &[u8], named: bool, staged: bool) -> Reason {
    unsafe {
        linked::vwrite_after_write(
            &mut r, f.id, f.slot, f.vstart, f.vsize, number, lba, shown.as_ptr(), len(shown), written.as_ptr(), len(written), named, staged,
        );
    }
    r
}

pub fn vwrite_after_end(mut r: Reason, ended: u8, id: u16, named: bool) -> Reason {
    unsafe { linked::vwrite_after_end(&mut r, ended, id, named) };
    r
}

pub fn vwrite_after_gone(mut r: Reason, number: u8, row: usize, j: usize) -> Reason {
    unsafe { linked::vwrite_after_gone(&mut r, number, row as u64, j as u64) };
    r
}
