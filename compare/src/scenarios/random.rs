//! Sectors at places that matter, with changes that matter, in no sensible order.
use super::{begin, file_count, other_call};
use crate::both::Both;
use crate::hosts;
use crate::rng::Rng;
use bindings::{Sector, DATA_START, LAST_CLUSTER, ROOT_START, SPC, TOTAL};

pub fn writes(r: &mut Rng, both: &mut Both) {
    let n = file_count(r);
    begin(r, both, n);
    for _ in 0..r.range(20, 150) {
        if r.one_in(10) {
            other_call(r, both);
        }
        write(r, both);
    }
}

/// A cluster that matters: a file's, one with a pair, a staged one, one at an edge, any.
fn cluster(r: &mut Rng, both: &Both) -> u32 {
    let any = r.range(0, LAST_CLUSTER + 30);
    match r.below(8) {
        0..=2 if !both.files.is_empty() => {
            let f = both.files[r.below(both.files.len())];
            (f.vstart as u32 + r.below(f.vsize.div_ceil(bindings::CB) as usize + 1) as u32).min(LAST_CLUSTER)
        }
        3 => both.w.pair[r.below(bindings::NPAIR)].c as u32,
        4 => both.w.st[r.below(bindings::NST)].c as u32,
        5 => r.pick(&[0, 1, 2, 3, 4, 5, 6, 7, both.w.first, both.w.first.wrapping_sub(1), 65_000, 65_001, 65_002, 65_023]),
        6 => both.w.first + r.range(0, 40),
        _ => any,
    }
}

pub fn write(r: &mut Rng, both: &mut Both) {
    let c = cluster(r, both);
    let in_data = DATA_START as u64 + (c as u64).saturating_sub(2) * SPC as u64;
    let lba = match r.below(20) {
        0 => 0,
        1..=7 => 1 + r.below(2) as u32 * 254 + (c / 256).min(253),
        8..=10 => ROOT_START + if r.one_in(3) { r.range(0, 31) } else { 0 },
        11..=13 => DATA_START + r.range(0, 4) * SPC + if r.one_in(4) { r.range(0, 63) } else { r.range(0, 2) },
        14 => r.pick(&[TOTAL - 1, TOTAL, TOTAL + 1, u32::MAX]),
        _ => (in_data as u32 + r.range(0, 63)).min(TOTAL - 1),
    };
    let shown = shown(r, lba);
    let written = changed(r, both, lba, &shown);
    let busy = r.one_in(30);
    both.write(lba, &shown, &written, busy);
}

fn shown(r: &mut Rng, lba: u32) -> Sector {
    let mut s = [0; 512];
    match r.below(6) {
        0 => {}
        1 => s.iter_mut().for_each(|b| *b = r.next() as u8),
        2 => (0..20).for_each(|_| s[r.below(512)] = r.next() as u8),
        _ => s = original::generated(lba),
    }
    s
}

/// A few changes of the sector's own kind.
fn changed(r: &mut Rng, both: &Both, lba: u32, shown: &Sector) -> Sector {
    let mut d = *shown;
    for _ in 0..r.below(5) {
        let at = r.below(16) * 32;
        match lba {
            0 => d[if r.one_in(3) { r.below(512) } else { 0x25 }] = r.next() as u8,
            1..=508 => {
                let any = r.next() as u16;
                let v = r.pick(&[0, 0, 0, 1, 2, 65_001, 65_002, 0xFFF7, 0xFFF8, 0xFFFF, 0x3FFF, 0x7FFE, any]);
                let c = cluster(r, both) as usize % 256;
                d[c * 2..c * 2 + 2].copy_from_slice(&v.to_le_bytes());
            }
            509..=540 => root_slot(r, both, &mut d, at),
            _ => match r.below(6) {
                0 => d[at] = 0xE5,
                1 => d[at + r.pick(&[0x0D, 0x13, 0x14, 0x15, 0x16, 0x19, 0x1A, 0x0C])] = r.next() as u8,
                2 => d[at..at + 32].fill(0),
                3 if !both.files.is_empty() => {
                    let f = both.files[r.below(both.files.len())];
                    d[at..at + 32].copy_from_slice(&hosts::slot(b"S007    BMP", r.pick(&[0x20, 0x01, 0x08, 0x10, 0x0F]), f.vstart, f.vsize));
                }
                4 => d.fill(r.pick(&[0, 0xFF, 0xE5])),
                _ => d[r.below(512)] = r.next() as u8,
            },
        }
    }
    if r.one_in(12) {
        d.fill(0);
    }
    d
}

fn root_slot(r: &mut Rng, both: &Both, d: &mut Sector, at: usize) {
    let c = cluster(r, both) as u16;
    let size = r.pick(&[0, 127, 128, 513, 638_988, 638_989, u32::MAX]);
    let name: &[u8; 11] = r.pick(&[b"DM40FW  BIN", b"dm40    bIn", b"DM41    BIN", b"$RECYCLEBIN", b"_~1        ", b"._A        ", b"README  TXT"]);
    match r.below(6) {
        0 => d[at] = r.pick(&[0, 0xE5, 0x41]),
        1 => d[at + r.pick(&[0x0B, 0x0D, 0x13, 0x14, 0x16, 0x19, 0x1A])] = r.next() as u8,
        2 => {
            let (name, short) = r.pick(&hosts::HOUSEKEEPING);
            let slots = hosts::named(name, short, r.pick(&[0x10, 0x20, 0x00]), c, size);
            for (i, e) in slots.iter().enumerate() {
                let o = at + i * 32;
                if o < 512 {
                    d[o..o + 32].copy_from_slice(e);
                }
            }
            if r.one_in(3) {
                d[at] = r.pick(&[0x21, 0xA1, 0x01, 0x41, 0x42, 0x43, 0x44]);
            }
        }
        _ => {
            let any = r.next() as u8;
            let mut e = hosts::slot(name, r.pick(&[0x20, 0x20, 0x00, 0x10, 0x08, 0x0F, 0xCF, any]), c, size);
            if r.one_in(5) {
                e[r.pick(&[0x14, 0x15, 0x0D, 0x1B])] = r.next() as u8;
            }
            d[at..at + 32].copy_from_slice(&e);
        }
    }
}
