//! Update files, valid and nearly valid, staged in any order over scattered clusters and checked; chains at every number of sectors.
use super::{begin, free_clusters};
use crate::bodies::{self, Plain};
use crate::both::Both;
use crate::hosts;
use crate::rng::Rng;
use crate::tables;
use bindings::{Pair, St, State, CB, LAST_CLUSTER, NST, SPC};

/// Sizes at the edges of blocks and of what a short block holds, of sectors, the marker and clusters, and any.
fn size(r: &mut Rng) -> usize {
    let any = r.range(128, 5_000);
    let long = r.range(128, 70_000);
    let edge = r.pick(&[512, 1_024, 4_096, 16_396, 16_408, 32_768, 65_536]) + r.range(0, 4) - 2;
    (match r.below(40) {
        0 => r.range(600_000, 638_988),
        1 => 28 * CB - r.range(0, 2),
        2..=4 => long,
        5..=16 => edge,
        17..=24 => r.range(1, 40) * 128 + r.pick(&[0, 1, 30, 31, 32, 33, 64, 65, 127]),
        _ => any,
    }) as usize
}

/// A file staged whole, checked, and checked again with one thing wrong at a time.
pub fn bodies(r: &mut Rng, both: &mut Both) {
    let size = size(r);
    let count = size.div_ceil(CB as usize);
    let files = r.below(4);
    begin(r, both, files);
    let (fat, area) = tables::medium(r, 8 * count + 6, 1);
    let (mut w, files) = (both.w, both.files.clone());
    w.rw = true;
    both.set(w, &files, &fat, &area);
    let clusters = free_clusters(r, both, count);
    if clusters.len() < count {
        return;
    }
    let plain = bodies::valid(r, size);
    let bytes = bodies::scrambled(&plain);
    let at = r.range(7, 511);
    let mut changes = hosts::update(r, &clusters, at, &bytes);
    r.shuffle(&mut changes);
    for change in &changes {
        let shown = original::generated(change.lba);
        both.write(change.lba, &shown, &change.on(&shown), false);
    }
    checked(both, &clusters, &plain);
    let mut staged = bytes;
    for _ in 0..12 {
        let hazard = if r.one_in(4) { bodies::hazard(r, &plain) } else { None };
        let wrong = hazard.unwrap_or_else(|| bodies::nearly(r, &plain));
        let bytes = bodies::scrambled(&wrong);
        restage(both, &clusters, &staged, &bytes);
        staged = bytes;
        checked(both, &clusters, &wrong);
    }
    for other in [size - 1, size + 1] {
        both.body(clusters[0], other as u32);
    }
}

/// The sectors that differ, written again.
fn restage(both: &mut Both, clusters: &[u32], old: &[u8], new: &[u8]) {
    for (k, (a, b)) in old.chunks(512).zip(new.chunks(512)).enumerate().filter(|(_, (a, b))| a != b) {
        debug_assert_eq!(a.len(), b.len());
        let mut sector = [0x5A; 512];
        sector[..b.len()].copy_from_slice(b);
        let change = hosts::data(clusters[k / SPC as usize], k as u32 % SPC, &sector);
        let shown = original::generated(change.lba);
        both.write(change.lba, &shown, &change.on(&shown), false);
    }
}

fn checked(both: &mut Both, clusters: &[u32], made: &Plain) {
    both.complete(clusters[0], made.bytes.len() as u32);
    both.body_made(clusters[0], made.bytes.len() as u32, made.valid);
}

/// A file of one whole block and a short one of every length: valid, with its key past the end, and with one byte wrong.
pub fn every_short_block(r: &mut Rng, both: &mut Both) {
    let start = r.range(7, LAST_CLUSTER);
    let mut w = State::new(7);
    w.pair[0] = Pair { c: start as u16, v: 0xFFFF };
    w.st[0] = St { c: start as u16, map: 1, blk: [2, 0, 0, 0, 0, 0, 0, 0], ..St::default() };
    both.set(w, &[], &[0; 3], &[0x5A; 4096]);
    for short in 0..128 {
        let plain = bodies::valid(r, 128 + short);
        let wrong = bodies::nearly(r, &plain);
        for made in [bodies::hazard(r, &plain), Some(wrong), Some(plain)].into_iter().flatten() {
            both.set_area(0, &bodies::scrambled(&made));
            checked(both, &[start], &made);
        }
    }
}

/// A chain with exactly the sectors that a size asks for, and one less, at every number of sectors of its last cluster.
pub fn every_sector(r: &mut Rng, both: &mut Both) {
    let n = r.range(1, NST as u32);
    let mut w = State::new(7);
    w.rw = true;
    let start = r.range(7, LAST_CLUSTER - 2 * NST as u32);
    for k in 0..n as usize {
        let c = start as u16 + 2 * k as u16;
        w.pair[k] = Pair { c, v: if k as u32 + 1 == n { 0xFFF8 } else { c + 2 } };
        w.st[k] = St { c, map: u64::MAX, ..St::default() };
    }
    both.set(w, &[], &[], &[]);
    let last = n as usize - 1;
    for sectors in 1..=SPC {
        w.st[last].map = u64::MAX >> (SPC - sectors);
        both.set_session(w, &[]);
        let base = (n - 1) * CB + sectors * 512;
        for size in [base - 512, base - 511, base - 1, base, base + 1] {
            both.complete(start, size);
        }
        w.st[last].map ^= 1 << r.range(0, sectors - 1);
        both.set_session(w, &[]);
        both.complete(start, base);
        both.complete(start, base - 511);
    }
}
