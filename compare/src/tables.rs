//! File tables and media, and which tables a start takes.
use crate::rng::Rng;
use bindings::{File, CB, LAST_CLUSTER};

fn clusters(f: &File) -> u32 {
    f.vsize.div_ceil(CB)
}

/// The directory that shows a file.
pub fn shown_dir(id: u16) -> u16 {
    match id >> 10 & 3 {
        3 => 0,
        k => k,
    }
}

/// Document 01: unmarked, starts rise strictly, no start lies in another file's clusters, all clusters lie from the first session cluster (7 to
/// 65,002) to 65,001, no two files share kind and number, or shown directory and slot; up to 400.
pub fn acceptable(files: &[File], first: u32) -> bool {
    let within = |f: &File| clusters(f) == 0 || (f.vstart as u32 >= first && f.vstart as u32 + clusters(f) - 1 <= LAST_CLUSTER);
    let apart = |a: &File, b: &File| {
        let in_b = (a.vstart as u32) >= b.vstart as u32 && (a.vstart as u32) < b.vstart as u32 + clusters(b);
        !in_b && a.id & 0xFFF != b.id & 0xFFF && (shown_dir(a.id) != shown_dir(b.id) || a.slot != b.slot)
    };
    files.len() <= 400
        && (7..=65_002).contains(&first)
        && files.iter().all(|f| f.id & 0xF000 == 0 && within(f))
        && files.windows(2).all(|p| p[0].vstart < p[1].vstart)
        && (0..files.len()).all(|i| (0..files.len()).all(|j| i == j || apart(&files[i], &files[j])))
}

/// A table that a start takes, of about `n` files.
pub fn table(r: &mut Rng, n: usize) -> (Vec<File>, u32) {
    let first = match r.below(6) {
        0 => 7,
        1 => 8,
        2 => r.range(64_000, 65_002),
        3 => 535,
        _ => r.range(7, 2000),
    };
    let mut files = vec![];
    let mut c = first;
    let mut slots = [2u16; 3];
    let mut number = 0;
    let wide = r.one_in(3);
    while files.len() < n {
        c += match r.below(5) {
            0 => r.range(0, 3),
            1 if wide => r.range(0, 300),
            2 => (255 - c % 256) % 256 * r.one_in(3) as u32,
            _ => 0,
        };
        let vsize = match r.below(8) {
            0 => 0,
            1 => 1,
            2 => CB,
            3 => CB + 1,
            4 if wide => r.range(0, 300 * CB),
            _ => r.range(1, 4 * CB),
        };
        let kind = r.below(4) as u16;
        number += 1 + r.one_in(9) as u16;
        let f = File {
            id: kind << 10 | number,
            slot: slots[shown_dir(kind << 10) as usize],
            vstart: c as u16,
            src: r.next() as u16,
            ssize: r.next() as u32,
            vsize,
        };
        if number > 1023 || c + clusters(&f).max(1) > LAST_CLUSTER + 1 {
            break;
        }
        slots[shown_dir(f.id) as usize] += 1 + 7 * r.one_in(6) as u16;
        c += clusters(&f).max(1);
        files.push(f);
    }
    (files, first)
}

/// A medium: so many entries, and of them about one in `free` is 0.
pub fn medium(r: &mut Rng, entries: usize, free: usize) -> (Vec<u16>, Vec<u8>) {
    let fat = (0..entries).map(|_| if r.one_in(free) { 0 } else { r.next() as u16 | 1 }).collect();
    let fill = r.next() as u8;
    (fat, vec![fill; entries.saturating_sub(2) * 4096])
}

/// A small one mostly; now and then one of the stated domain, or none at all.
pub fn any_medium(r: &mut Rng) -> (Vec<u16>, Vec<u8>) {
    match r.below(40) {
        0 => medium(r, 0, 1),
        1 => medium(r, 2, 1),
        2 => medium(r, 3, 1),
        3 => medium(r, 4_087, 3),
        4..=9 => medium(r, 12, 3),
        _ => {
            let n = r.range(8, 60) as usize;
            medium(r, n, 1)
        }
    }
}
