//! Sessions of hosts: deletes, moves, updates and housekeeping in any order of their sectors, whole or damaged.
use super::{begin, file_count, free_clusters, other_call};
use crate::both::Both;
use crate::hosts::{self, Change};
use crate::rng::Rng;
use bindings::{File, Sector};

pub fn session(r: &mut Rng, both: &mut Both, damaged: bool) {
    let n = file_count(r);
    begin(r, both, n);
    for _ in 0..r.range(1, 4) {
        let mut changes = task(r, both);
        match r.below(4) {
            0 => {}
            1 => changes.reverse(),
            _ => r.shuffle(&mut changes),
        }
        if r.one_in(2) {
            changes = hosts::merged(changes);
            r.shuffle(&mut changes);
        }
        carry_out(r, both, changes, damaged);
        finish(r, both);
    }
}

fn some_files(r: &mut Rng, both: &Both, n: usize) -> Vec<File> {
    (0..n).filter_map(|_| (!both.files.is_empty()).then(|| both.files[r.below(both.files.len())])).collect()
}

/// One thing that a person does, as changed sectors.
fn task(r: &mut Rng, both: &Both) -> Vec<Change> {
    let n = r.range(1, 9) as usize;
    let files = some_files(r, both, n);
    let at = r.range(7, 500);
    match r.below(9) {
        0 | 1 => files.iter().take(1).flat_map(|f| whole_delete(r, f)).collect(),
        2 => hosts::merged(files.iter().flat_map(|f| whole_delete(r, f)).collect()),
        3 | 4 => trash(r, both, &files, at),
        5 => {
            let size = if r.one_in(12) { r.range(600_000, 700_000) } else { r.range(1, 70_000) };
            let clusters = free_clusters(r, both, size.div_ceil(bindings::CB) as usize);
            if clusters.len() < size.div_ceil(bindings::CB) as usize {
                return vec![];
            }
            let bytes = hosts::noise(r, size as usize);
            hosts::update(r, &clusters, at, &bytes)
        }
        6 => {
            let clusters = free_clusters(r, both, 3);
            clusters
                .iter()
                .enumerate()
                .flat_map(|(i, &c)| hosts::directory(r, (at as usize + i) % hosts::HOUSEKEEPING.len(), c, (at + 4 * i as u32).min(508)))
                .collect()
        }
        7 => fragments(r, both),
        _ => boot_and_flags(r),
    }
}

fn whole_delete(r: &mut Rng, f: &File) -> Vec<Change> {
    let copies = 1 + r.below(2) as u32;
    let mut all = hosts::zero(f, copies);
    all.push(hosts::turn(r, f));
    all
}

/// Files moved into a trash: its directory, a sector that names them, their slots turned; now and then taken back.
fn trash(r: &mut Rng, both: &Both, files: &[File], at: u32) -> Vec<Change> {
    let clusters = free_clusters(r, both, 2);
    let [c, d] = clusters[..] else { return vec![] };
    let which = r.below(hosts::HOUSEKEEPING.len());
    let mut all = hosts::directory(r, which, c, at.min(500));
    all.extend(hosts::entries(&[(d, 0xFFFF)], 1));
    let (sector, names) = (r.range(0, 3), hosts::naming(r, files));
    all.push(hosts::data(d, sector, &names));
    all.extend(files.iter().map(|f| hosts::turn(r, f)));
    if r.one_in(3) {
        all.push(hosts::data(d, 0, &[0; 512]));
    }
    if r.one_in(3) {
        all.extend(files.iter().flat_map(|f| hosts::zero(f, 1)));
    }
    all
}

/// Many pairs, records, staged clusters, or blocks: until 14, 15, 16 and 18.
fn fragments(r: &mut Rng, both: &Both) -> Vec<Change> {
    let n = r.range(20, 60) as usize;
    let clusters = free_clusters(r, both, n);
    match r.below(3) {
        0 => clusters.iter().flat_map(|&c| hosts::entries(&[(c, r.pick(&[0xFFFF, 0xFFF8, 2, 65_001, c as u16]))], 1)).collect(),
        1 => clusters
            .iter()
            .enumerate()
            .flat_map(|(i, &c)| hosts::root_slots(7 + 9 * i as u32 % 500, &[hosts::slot(b"DM40FW  BIN", 0x20, c as u16, 128)]))
            .collect(),
        _ => clusters.iter().map(|&c| hosts::data(c, r.range(0, 63), &[r.next() as u8; 512])).collect(),
    }
}

fn boot_and_flags(r: &mut Rng) -> Vec<Change> {
    let mut all = hosts::entries(&[(1, r.pick(&[0x3FFF, 0x7FFF, 0xBFFF, 0xFFFF, 0x7FFE, 0x1FFF, 0xDFFF]))], 2);
    all.push(Change { lba: 0, edits: vec![(0x25, vec![r.next() as u8])] });
    // Dates of the root's own slots are dropped.
    all.push(Change { lba: bindings::ROOT_START, edits: vec![(32 * r.below(7) + 0x16, vec![r.next() as u8, r.next() as u8])] });
    all
}

fn carry_out(r: &mut Rng, both: &mut Both, changes: Vec<Change>, damaged: bool) {
    let stale: Vec<Sector> = if damaged { changes.iter().map(|c| original::generated(c.lba)).collect() } else { vec![] };
    for (i, change) in changes.iter().enumerate() {
        if r.one_in(12) {
            other_call(r, both);
        }
        let mut shown = original::generated(change.lba);
        let mut lba = change.lba;
        let mut again = 1;
        let mut change = change.clone();
        if damaged && r.one_in(3) {
            match r.below(7) {
                0 => continue,
                1 => again = 2,
                2 => shown = stale[i],
                3 => {
                    let any = r.next() as u32 % 5_000_000;
                    lba = r.pick(&[lba.wrapping_add(1), lba.wrapping_sub(1), lba + 254, any]);
                }
                4 => change.edits.push((r.below(512), vec![r.next() as u8])),
                5 => shown[r.below(512)] ^= 1 << r.below(8),
                _ => change.edits.truncate(r.below(change.edits.len() + 1)),
            }
        }
        for _ in 0..again {
            let busy = r.one_in(40);
            both.write(lba, &shown, &change.on(&shown), busy);
        }
    }
}

/// The end that a host makes of it, or none.
fn finish(r: &mut Rng, both: &mut Both) {
    for _ in 0..r.below(4) {
        other_call(r, both);
    }
    match r.below(6) {
        0 => {
            both.release();
        }
        1 => {
            both.bus_reset();
        }
        2 => {
            let at = both.w.now_ms.wrapping_add(r.range(1_400, 61_000) as u64);
            both.poll(at, false);
        }
        3 => {
            while let Some(j) = both.find_handed() {
                both.gone(j);
            }
        }
        _ => {}
    }
}
