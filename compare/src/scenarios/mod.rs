//! Where the calls come from: sessions of hosts, damaged ones, update files, names, random sectors, limits, states set directly.
mod direct;
mod limits;
mod names;
mod random;
mod sessions;
mod updates;

use crate::both::Both;
use crate::rng::Rng;
use bindings::State;

pub fn run(seed: u64, both: &mut Both) {
    let mut r = Rng::new(seed);
    match r.below(20) {
        0..=5 => sessions::session(&mut r, both, false),
        6..=8 => sessions::session(&mut r, both, true),
        9..=11 => random::writes(&mut r, both),
        12 => direct::states(&mut r, both),
        13 => match r.below(6) {
            0 => direct::freed_with_pair(&mut r, both),
            1 => direct::naming_slots(&mut r, both),
            2 => direct::parked(&mut r, both),
            3 => direct::one_held(&mut r, both),
            4 => direct::undecided(&mut r, both),
            _ => direct::states(&mut r, both),
        },
        14 => (0..20).for_each(|_| direct::chains(&mut r, both)),
        15..=16 => updates::bodies(&mut r, both),
        17 if r.one_in(3) => updates::every_short_block(&mut r, both),
        17 => updates::every_sector(&mut r, both),
        18 => names::all(&mut r, both),
        _ => limits::all(&mut r, both),
    }
}

/// How many files a table has.
fn file_count(r: &mut Rng) -> usize {
    let few = r.range(1, 12) as usize;
    match r.below(12) {
        0 => 0,
        1 => 400,
        2 | 3 => 50,
        4 => 1,
        _ => few,
    }
}

/// A fresh session with writing on.
fn begin(r: &mut Rng, both: &mut Both, files: usize) {
    let (files, first) = crate::tables::table(r, files);
    let (fat, area) = crate::tables::any_medium(r);
    both.set(State::new(first), &files, &fat, &area);
    both.start(&files, first, crate::tables::acceptable(&files, first));
    both.set_read_only(r.one_in(60));
    both.mode_reset();
}

/// Clusters that no file owns and that have no pair.
fn free_clusters(r: &mut Rng, both: &Both, n: usize) -> Vec<u32> {
    let first = both.w.first.min(bindings::LAST_CLUSTER);
    let mut out = vec![];
    let mut at = r.range(first, bindings::LAST_CLUSTER);
    let scattered = r.one_in(3);
    for _ in 0..70_000 {
        if out.len() == n {
            break;
        }
        if original::owner(at).0 == 3 && original::pair(at).is_none() && !out.contains(&at) {
            out.push(at);
        }
        at = if scattered || at == bindings::LAST_CLUSTER { r.range(first, bindings::LAST_CLUSTER) } else { at + 1 };
    }
    out
}

/// A call between writes.
fn other_call(r: &mut Rng, both: &mut Both) {
    let clock = match r.below(8) {
        0 => r.next(),
        1 => 0,
        2 => both.w.now_ms.wrapping_sub(r.range(1, 100_000) as u64),
        3 => both.w.now_ms.wrapping_add(60_000),
        4 => both.w.now_ms.wrapping_add(1_500),
        _ => both.w.now_ms.wrapping_add(r.range(0, 3000) as u64),
    };
    let row = r.below(both.files.len() + 2);
    match r.below(40) {
        0..=17 => {
            let mounted = r.one_in(3);
            both.poll(clock, mounted);
        }
        18 => {
            both.release();
        }
        19 => {
            let reset = r.one_in(2);
            both.release_all(reset);
        }
        20 => {
            both.bus_reset();
        }
        21 => both.mode_reset(),
        22 | 23 => both.set_read_only(r.one_in(5)),
        24 | 25 => {
            both.gone(row);
        }
        26 | 27 => {
            if let Some(j) = both.find_handed() {
                both.gone(j);
            }
        }
        28 => refused_start(r, both),
        29 if both.fat.len() > 2 => {
            let i = 2 + r.below(both.fat.len() - 2);
            let v = if r.one_in(2) { 0 } else { r.next() as u16 };
            both.set_entry(i, v);
        }
        30 => {
            let (n, len) = (both.fat.len(), both.area.len());
            let lent = match r.below(4) {
                0 => (n, len.saturating_sub(1)),
                1 => (n.saturating_sub(1), len),
                2 => (n.saturating_sub(1), len.saturating_sub(4096)),
                _ => (n, len),
            };
            both.lend(lent.0, lent.1);
        }
        _ => reads(r, both),
    }
}

/// The calls that only read.
fn reads(r: &mut Rng, both: &mut Both) {
    let c = match r.below(3) {
        0 => both.w.pair[r.below(bindings::NPAIR)].c as u32,
        1 => both.w.st[r.below(bindings::NST)].c as u32,
        _ => r.next() as u32 & 0x1FFFF,
    };
    let sector = r.range(0, 66);
    both.staged_read(c, sector);
    both.pair(c);
    let slot = both.w.rec[r.below(bindings::NREC)].slot as usize;
    both.root_rec(if r.one_in(3) { r.below(600) } else { slot });
    both.queries(r.one_in(2));
    both.layout(c, r.next() as u32);
    let bytes: Vec<u8> = (0..r.below(600)).map(|_| r.next() as u8).collect();
    both.crc16(r.next() as u16, &bytes);
    let size = match r.below(4) {
        0 => r.next() as u32,
        1 => r.range(0, 40_000),
        _ => r.range(100, 2_000),
    };
    both.complete(c, size);
    both.body(c, size);
    both.find_handed();
}

/// A start with one thing wrong about its table: the old table and state go on.
fn refused_start(r: &mut Rng, both: &mut Both) {
    let n = r.range(2, 20) as usize;
    let (mut files, mut first) = crate::tables::table(r, n);
    if files.is_empty() {
        return;
    }
    let (i, j) = (r.below(files.len()), r.below(files.len()));
    match r.below(8) {
        0 => files[i].id |= 1 << r.range(12, 15),
        1 => files[i].vstart = files[j].vstart.wrapping_add(r.below(2) as u16),
        2 => files[i].id = files[j].id,
        3 => files[i].slot = files[j].slot,
        4 => first = r.pick(&[0, 6, 65_003, u32::MAX]),
        5 => files[i].vsize = r.next() as u32,
        6 => first = files[i].vstart as u32 + 1,
        _ => files.swap(i, j),
    }
    // A start that takes its table begins a new session.
    both.start(&files, first, crate::tables::acceptable(&files, first));
}
