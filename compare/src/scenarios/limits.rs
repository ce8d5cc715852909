//! The limits of every number.
use super::{begin, reads};
use crate::both::Both;
use crate::hosts;
use crate::rng::Rng;
use bindings::{File, St, State, DATA_START, SPC, TOTAL};

pub fn all(r: &mut Rng, both: &mut Both) {
    begin(r, both, 3);
    both.w.n.ok = u32::MAX - 1;
    both.w.n.refused = u32::MAX - 1;
    both.w.n.busy = u32::MAX - 1;
    both.w.ver = u32::MAX - 1;
    let (w, files) = (both.w, both.files.clone());
    both.set_session(w, &files);
    places(both);
    lengths(r, both);
    values(r, both);
    names(r, both);
    staging(r, both);
    waits(r, both);
    for _ in 0..4 {
        reads(r, both);
    }
    for c in [0, 1, 2, 3, 4, 6, 7, both.w.first - 1, both.w.first, 65_001, 65_002, 65_003, 65_536, u32::MAX] {
        both.layout(c, c);
    }
    for (c, s) in [(0, 64), (9, 64), (9, u32::MAX), (65_001, 63)] {
        both.staged_read(c, s);
    }
    for size in [0, 1, 127, 128, 32_767, 32_768, 32_769, 917_504, 917_505, u32::MAX] {
        both.layout(r.range(0, 65_010), size);
        both.complete(9, size);
        both.body(9, size);
    }
    boot_bytes(both);
    first_entries(both);
    held_blocks(r, both);
}

fn places(both: &mut Both) {
    for lba in [0, 1, 254, 255, 508, 509, 540, 541, 541 + 5 * 64 - 1, 541 + 5 * 64, TOTAL - 1, TOTAL, u32::MAX] {
        let g = original::generated(lba);
        both.write(lba, &g, &g, false);
        let mut d = g;
        d[0] ^= 1;
        both.write(lba, &g, &d, false);
        both.write(lba, &g, &d, true);
    }
}

/// Each byte of the boot sector changed by itself: 0x25 alone may.
fn boot_bytes(both: &mut Both) {
    let shown = original::generated(0);
    for i in 0..512 {
        let mut written = shown;
        written[i] ^= 1;
        both.write(0, &shown, &written, false);
    }
}

/// FAT[1] as it is told for every bit of the field, written or not.
fn first_entries(both: &mut Both) {
    let (w, files) = (both.w, both.files.clone());
    for fat1 in (0..20).map(|i| 1 << i).chain([0, 1, 0xFFFE, 0xFFFF, 0x1_0000, 0x1_0001, 0x1_7FFF, 0x1_FFFF]) {
        both.set_session(State { fat1, ..w }, &files);
        both.queries(true);
    }
    both.set_session(w, &files);
}

/// Sectors of a staged cluster whose blocks are none, the first, the last and ones that the medium doesn't have.
fn held_blocks(r: &mut Rng, both: &mut Both) {
    let (w, files) = (both.w, both.files.clone());
    let last = both.fat.len() as u16 - 1;
    let noise = hosts::noise(r, 4096);
    let n = noise.len().min(both.area.len());
    both.set_area(0, &noise[..n]);
    let mut st = w.st;
    st[3] = St { c: 60_000, map: u64::MAX, blk: [2, 0, last, last + 1, 65_525, 3, 0, 2], ..St::default() };
    both.set_session(State { st, ..w }, &files);
    for s in 0..64 {
        both.staged_read(60_000, s);
    }
    st[3].map = r.next();
    both.set_session(State { st, ..w }, &files);
    for s in 0..64 {
        both.staged_read(60_000, s);
    }
    both.set_session(w, &files);
}

/// Both sides of every wait: the quiet time, in ticks and in `frozen`, and the time that an end is held back.
fn waits(r: &mut Rng, both: &mut Both) {
    let (w, files) = (both.w, both.files.clone());
    let at = r.range(1, 100_000) as u64;
    for after in [0, 1, 1_499, 1_500, 1_501, 59_999, 60_000, 60_001] {
        for (session, locks, end_at) in [(true, false, 0), (false, false, 0), (true, true, 0), (true, false, at), (false, true, at)] {
            let state = State { rw: true, session, locks, last: at, now_ms: at + after, end_at, ..w };
            both.set_session(state, &files);
            both.queries(false);
            both.queries(true);
            for mounted in [false, true] {
                both.set_session(state, &files);
                both.poll(at + after, mounted);
            }
        }
    }
    both.set_session(w, &files);
}

/// 1 and 10, which the Rust has no answer for.
fn lengths(r: &mut Rng, both: &mut Both) {
    let s = [0; 600];
    let many = vec![File::default(); 401];
    for (a, b) in [(511, 512), (512, 511), (513, 512), (512, 513), (0, 512), (512, 0)] {
        both.write_refused(r.next() as u32, &s[..a], &s[..b], &[]);
    }
    both.write_refused(5_000_000, &s[..511], &s[..512], &many);
    both.write_refused(5_000_000, &s[..512], &s[..512], &many);
    both.too_many(&mut many.clone());
    both.start(&many, 7, false);
}

fn values(r: &mut Rng, both: &mut Both) {
    let free = super::free_clusters(r, both, 1);
    for c in [0, 1, 2, both.w.first - 1, 65_002, 65_023].into_iter().chain(free) {
        for v in [0, 1, 2, 0x3FFF, 0x7FFE, 0x7FFF, 0xBFFF, 65_001, 65_002, 0xFFF7, 0xFFF8, 0xFFFF] {
            for change in hosts::entries(&[(c, v)], 2) {
                let g = original::generated(change.lba);
                both.write(change.lba, &g, &change.on(&g), false);
            }
        }
    }
}

fn names(r: &mut Rng, both: &mut Both) {
    let c = super::free_clusters(r, both, 1).first().copied().unwrap_or(9) as u16;
    for slot in [0, 6, 7, 8, 15, 16, 511] {
        for size in [0, 638_988, 638_989] {
            for change in hosts::root_slots(slot, &[hosts::slot(b"DM40FW  BIN", 0x20, c, size)]) {
                let g = original::generated(change.lba);
                both.write(change.lba, &g, &change.on(&g), false);
            }
        }
    }
}

fn staging(r: &mut Rng, both: &mut Both) {
    for c in super::free_clusters(r, both, 30) {
        for s in [0, 7, 8, 63] {
            let lba = DATA_START + (c - 2) * SPC + s;
            let g = original::generated(lba);
            both.write(lba, &g, &[0; 512], false);
            both.write(lba, &g, &[s as u8 + 1; 512], r.one_in(9));
        }
    }
}
