//! States set directly: parked blocks, held numbers outside the medium, counts about to go round, ends held back.
use super::{file_count, other_call, random};
use crate::both::Both;
use crate::hosts;
use crate::rng::Rng;
use crate::tables;
use bindings::{Done, File, Pair, Rec, St, State, Stats, LAST_CLUSTER};

/// A chain over staged clusters, its last link and what is staged about right.
fn chain(r: &mut Rng, w: &mut State) -> (u32, u32) {
    let n = r.range(1, 28) as usize;
    let size = (n as u32 - 1) * bindings::CB + r.range(1, bindings::CB);
    let start = r.range(w.first, LAST_CLUSTER - 60);
    let whole = r.one_in(2);
    for k in 0..n {
        let c = start as u16 + 2 * k as u16;
        let next = match r.below(60) {
            0 => start as u16,
            1 => c,
            _ if k + 1 == n => r.pick(&[0xFFFF, 0xFFF8, 0xFFF7, 2]),
            _ => c + 2,
        };
        w.pair[k] = Pair { c, v: next };
        w.st[k] = St { c, sealed: false, ro: 0, map: if whole || !r.one_in(9) { u64::MAX } else { u64::MAX >> r.range(1, 63) }, blk: [0; 8] };
    }
    (start, size)
}

pub fn chains(r: &mut Rng, both: &mut Both) {
    let mut w = State::new(r.range(7, 3000));
    w.rw = true;
    let (start, size) = chain(r, &mut w);
    let (fat, area) = tables::any_medium(r);
    both.set(w, &[], &fat, &area);
    for size in [size, size + 1, size.saturating_sub(1), 127, 128, size.div_ceil(bindings::CB) * bindings::CB] {
        both.complete(start, size);
        both.body(start, size);
    }
}

/// Files freed of which one cluster has a pair already, whichever row they stand in; no call leaves such a state.
pub fn freed_with_pair(r: &mut Rng, both: &mut Both) {
    let file = |j: u16| File { id: j + 1, slot: j + 2, vstart: 512 + 2 * j, src: 3, ssize: 9, vsize: 2 * bindings::CB };
    let files: Vec<File> = (0..r.pick(&[1, 31, 34, 66, 400])).map(file).collect();
    for _ in 0..20 {
        let mut w = State::new(7);
        w.rw = true;
        let f = files[r.below(files.len())];
        let paired = f.vstart + r.below(2) as u16;
        w.pair[r.below(bindings::NPAIR)] = Pair { c: paired, v: r.pick(&[2, 0xFFF8, 0xFFFF]) };
        both.set(w, &files, &[], &[]);
        for change in hosts::zero(&f, 1) {
            let shown = original::generated(change.lba);
            both.write(change.lba, &shown, &change.on(&shown), false);
        }
    }
}

/// A turned file and a staged slot that names it, but for one byte of the slot; then the release, which looks again, with the file marked as moved and
/// without.
pub fn naming_slots(r: &mut Rng, both: &mut Both) {
    let (mut files, first) = tables::table(r, 3);
    if files.is_empty() {
        return;
    }
    for f in &mut files {
        f.id |= 0x1000;
    }
    let (fat, area) = tables::medium(r, 8, 1);
    let mut w = State::new(first);
    w.rw = true;
    both.set(w, &files, &fat, &area);
    let Some(&c) = super::free_clusters(r, both, 1).first() else { return };
    for at in 0..32 {
        let f = files[r.below(files.len())];
        let named = hosts::slot(b"LOG007  CSV", 0x20, f.vstart, f.vsize);
        for value in [0, 1, 0x05, 0x08, 0x0F, 0x10, 0x18, 0x2F, 0x4F, 0xE5, 0xFF, named[at] ^ 1] {
            let mut sector = [0; 512];
            let place = 32 * r.below(16);
            sector[place..place + 32].copy_from_slice(&named);
            sector[place + at] = value;
            both.set_session(w, &files);
            let change = hosts::data(c, r.range(0, 63), &sector);
            both.write(change.lba, &[0; 512], &sector, false);
            let staged = both.w;
            both.release_all(false);
            both.set_session(staged, &files);
            both.release_all(false);
        }
    }
}

/// Sectors of a parked block: written as they read, zeros where none is staged, other data, which copies the block.
pub fn parked(r: &mut Rng, both: &mut Both) {
    let (fat, mut area) = tables::medium(r, 12, 2);
    area[..4096].iter_mut().for_each(|b| *b = r.next() as u8);
    let mut w = State::new(7);
    (w.rw, w.staging, w.hint) = (true, r.one_in(2), r.range(0, 12));
    let c = r.range(7, LAST_CLUSTER);
    let (block, map) = (r.below(8), r.next());
    w.st[r.below(bindings::NST)] = St { c: c as u16, ro: 1 << block | r.next() as u8, map, ..St::default() };
    for s in w.st.iter_mut().filter(|s| s.c != 0) {
        s.blk[block] = 2;
    }
    both.set(w, &[], &fat, &area);
    for q in 0..8 {
        let s = block as u32 * 8 + q;
        let mut read = [0; 512];
        if map >> s & 1 == 1 {
            read.copy_from_slice(&area[q as usize * 512..q as usize * 512 + 512]);
        }
        let mut other = read;
        other[r.below(512)] ^= 1;
        for written in [read, [0; 512], other] {
            both.set(w, &[], &fat, &area);
            both.write(hosts::data(c, s, &written).lba, &[0; 512], &written, false);
            both.staged_read(c, s);
        }
    }
}

/// The record of an update file, but for one byte, with something staged: whether a release is put off, where that file was decided and where not.
pub fn undecided(r: &mut Rng, both: &mut Both) {
    both.set(State::new(7), &[], &[], &[]);
    let mut e = hosts::slot(b"DM40FW  BIN", 0x20, 9, 128 + r.range(0, 2));
    e[0x0C..0x1A].fill(0x41);
    for at in 0..32 {
        for value in [0, 1, 0x08, 0x0F, 0x10, 0x18, 0x21, 0x4F, 0x7F, 0x80, 0xE5, e[at] ^ 1, e[at]] {
            let mut w = State::new(7);
            let slot = r.pick(&[0, 1, 7, 511]);
            w.ver = r.pick(&[0, 5]);
            w.done = Done { slot, start: 9, size: u32::from_le_bytes([e[0x1C], e[0x1D], e[0x1E], e[0x1F]]), ver: w.ver };
            if r.one_in(3) {
                w.done = r.pick(&[Done::default(), Done { slot: slot + 1, ..w.done }, Done { start: 10, ..w.done }, Done { size: 0, ..w.done }]);
            }
            let mut changed = e;
            changed[at] = value;
            w.rec[r.below(bindings::NREC)] = Rec { slot, e: changed };
            w.st[r.below(bindings::NST)].c = r.pick(&[9, 9, 9, 0]);
            both.set_session(w, &[]);
            both.release();
        }
    }
}

/// One thing held and no other, or none: whether there was anything to release.
pub fn one_held(r: &mut Rng, both: &mut Both) {
    let (fat, area) = tables::medium(r, 6, 2);
    both.set(State::new(7), &[], &fat, &area);
    for what in 0..7 {
        let mut w = State::new(7);
        w.rw = true;
        match what {
            0 => w.session = true,
            1 => w.boot = 1,
            2 => w.fat1 = 0x1_FFFF,
            3 => w.rec[r.below(bindings::NREC)] = Rec { slot: r.range(7, 511) as u16, e: hosts::slot(b"DM40FW  BIN", 0x20, 9, 128) },
            4 => w.pair[r.below(bindings::NPAIR)] = Pair { c: 9, v: 0xFFFF },
            5 => w.st[r.below(bindings::NST)] = staged(r, 9, fat.len()),
            _ => {}
        }
        both.set_session(w, &[]);
        both.release();
        both.set_session(w, &[]);
        both.release_all(r.one_in(2));
        both.set_session(w, &[]);
        both.bus_reset();
    }
}

pub fn states(r: &mut Rng, both: &mut Both) {
    let n = file_count(r);
    let (mut files, first) = tables::table(r, n);
    for f in &mut files {
        if r.one_in(3) {
            f.id |= (r.next() as u16) & 0xF000;
        }
    }
    let (fat, area) = tables::any_medium(r);
    let w = state(r, first, fat.len());
    both.set(w, &files, &fat, &area);
    for _ in 0..r.range(5, 60) {
        if r.one_in(4) {
            other_call(r, both);
        }
        random::write(r, both);
    }
}

fn count(r: &mut Rng) -> u32 {
    r.pick(&[0, 1, u32::MAX, u32::MAX - 1, 7])
}

fn time(r: &mut Rng) -> u64 {
    r.pick(&[0, 1, 59_999, 60_000, 1_500, u64::MAX, u64::MAX - 1, 1 << 40])
}

fn cluster(r: &mut Rng, first: u32) -> u16 {
    let near = r.range(first, first + 60).min(LAST_CLUSTER) as u16;
    match r.below(4) {
        0 => r.range(2, LAST_CLUSTER) as u16,
        _ => near,
    }
}

/// No cluster has two staging slots: no call leaves such a state, and docs/DECISIONS.md says what is read of one.
fn state(r: &mut Rng, first: u32, entries: usize) -> State {
    let mut w = State::new(first);
    w.rw = !r.one_in(20);
    w.want_rw = r.one_in(2);
    w.boot = r.pick(&[0, 1, 255]);
    w.fat1 = r.pick(&[0, 0x1_FFFF, 0x1_7FFF, 0x1_3FFF]);
    for p in &mut w.pair {
        if r.one_in(2) {
            *p = Pair { c: cluster(r, first), v: r.pick(&[0xFFFF, 0xFFF8, 2, 65_001]) };
        }
    }
    for k in 0..w.rec.len() {
        if r.one_in(2) {
            w.rec[k] = Rec {
                slot: r.range(7, 40) as u16 + 9 * k as u16,
                e: hosts::slot(b"DM40FW  BIN", 0x20, cluster(r, first), r.pick(&[127, 128, 600, 40_000])),
            };
        }
    }
    for i in 0..w.st.len() {
        let c = cluster(r, first);
        if r.one_in(2) && w.st.iter().all(|x| x.c != c) {
            w.st[i] = staged(r, c, entries);
        }
    }
    (w.session, w.locks, w.staging) = (r.one_in(2), r.one_in(2), r.one_in(2));
    (w.last, w.now_ms, w.stage_t, w.end_at) = (time(r), time(r), time(r), time(r) * r.one_in(3) as u64);
    w.hint = r.pick(&[0, 1, 2, 5, entries as u32, u32::MAX]);
    (w.err, w.fw) = (r.below(3) as u8, r.below(6) as u8);
    w.ver = count(r);
    let e = w.rec[r.below(w.rec.len())];
    if r.one_in(2) {
        let (start, size) = (u16::from_le_bytes([e.e[0x1A], e.e[0x1B]]), u32::from_le_bytes([e.e[0x1C], e.e[0x1D], e.e[0x1E], e.e[0x1F]]));
        w.done = Done { slot: e.slot, start, size, ver: w.ver };
    }
    (w.parks, w.purged, w.purge) = (r.pick(&[0, 1, 100]), r.one_in(2), r.one_in(2));
    w.n = Stats { ok: count(r), refused: count(r), busy: count(r), last_refused: r.next() as u32, deleted: 3, fw_ok: 65_535, fw_bad: 0 };
    w
}

fn staged(r: &mut Rng, c: u16, entries: usize) -> St {
    let mut s = St { c, sealed: r.one_in(5), ro: 0, map: r.next() & r.next(), blk: [0; 8] };
    for b in &mut s.blk {
        let inside = r.range(2, entries.max(3) as u32 - 1) as u16;
        *b = match r.below(5) {
            0 | 1 => 0,
            2 => r.pick(&[entries as u16 + 1, 65_535, entries.max(2) as u16]),
            _ => inside,
        };
    }
    s.ro = if r.one_in(2) { r.next() as u8 } else { 0 };
    s
}
