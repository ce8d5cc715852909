//! Times of both sides from one driver on the same inputs: cycles of each call, medians of interleaved runs, and their ratio.
use crate::hosts::{self, Change};
use crate::rng::Rng;
use bindings::calls::*;
use bindings::{File, Sector, State, CB, DATA_START, SPC};
use std::arch::x86_64::{__rdtscp, _mm_lfence};

mod sessions;

/// What every run of a kind starts from.
struct Start {
    w: State,
    files: Vec<File>,
    fat: Vec<u16>,
    area: Vec<u8>,
}

fn cycles(call: impl FnOnce()) -> u64 {
    let mut aux = 0;
    unsafe {
        _mm_lfence();
        let a = __rdtscp(&mut aux);
        _mm_lfence();
        call();
        let b = __rdtscp(&mut aux);
        _mm_lfence();
        b - a
    }
}

/// The answer counts as used.
fn told<T>(answer: T) {
    std::hint::black_box(answer);
}

fn median(mut v: Vec<u64>) -> u64 {
    v.sort_unstable();
    v[v.len() / 2]
}

fn table(n: usize) -> Vec<File> {
    // The first has 100 clusters in one FAT sector, all others two.
    let mut c = 768;
    (0..n)
        .map(|i| {
            let vsize = if i == 0 { 100 * CB } else { 2 * CB };
            let f = File { id: i as u16 + 1, slot: 2 + i as u16, vstart: c, src: 3, ssize: 9, vsize };
            c += (vsize / CB) as u16;
            f
        })
        .collect()
}

fn start(n: usize) -> Start {
    let mut w = State::new(535);
    (w.rw, w.want_rw, w.now_ms) = (true, true, 5_000);
    Start { w, files: table(n), fat: vec![0; 4_087], area: vec![0; 4_085 * 4096] }
}

fn set(s: &Start) {
    original::set_table(&s.files, s.w.first);
    original::set_state(&s.w);
}

/// A call timed on both sides, each from the start, in turn.
fn both(name: &str, s: &mut Start, runs: usize, rust: &mut dyn FnMut(), ours: &mut dyn FnMut(&mut Start)) -> (u64, u64) {
    let (w, files) = (s.w, s.files.clone());
    let (mut a, mut b) = (vec![], vec![]);
    for _ in 0..runs {
        set(s);
        a.push(cycles(&mut *rust));
        b.push(cycles(|| ours(s)));
        s.w = w;
        s.files.copy_from_slice(&files);
    }
    let (a, b) = (median(a), median(b));
    println!("{name:<34} {:>4} {a:>9} {b:>9} {:>6.2}", files.len(), b as f64 / a as f64);
    (a, b)
}

fn ours_write(s: &mut Start, lba: u32, g: &Sector, d: &Sector) -> u8 {
    vwrite_write(&mut s.w, &mut s.files, lba, g, d, false, &s.fat, &mut s.area)
}

/// A write of a change to the sector that the drive shows.
fn write(name: &str, s: &mut Start, change: &Change, number: u8) -> (u64, u64) {
    set(s);
    let g = original::generated(change.lba);
    let d = change.on(&g);
    let lba = change.lba;
    let mut answer = 0;
    let t = both(name, s, 2001, &mut || told(original::write(lba, &g, &d, false)), &mut |s| answer = ours_write(s, lba, &g, &d));
    assert_eq!(answer, number, "{name}");
    t
}

/// Sectors that no file of the table has to do with: refused ones, and dates, which are dropped.
fn refusals(s: &mut Start) {
    let byte = |lba: u32, at: usize| Change { lba, edits: vec![(at, vec![b'X'])] };
    let (info, debug, logs) = (DATA_START, DATA_START + SPC, DATA_START + 2 * SPC);
    write("refused: FAT[0]", s, &hosts::entries(&[(0, 7)], 1)[0], 4);
    write("refused: fixed data", s, &hosts::data(100, 0, &[1; 512]), 5);
    write("refused: the root's own slot", s, &byte(509, 0), 7);
    write("refused: a root slot", s, &hosts::root_slots(40, &[hosts::slot(b"README  TXT", 0x20, 60_000, 5)])[0], 8);
    write("refused: a slot of LOGS", s, &byte(logs, 64), 9);
    write("refused: a slot of INFO", s, &byte(info, 64), 9);
    write("refused: a slot of DEBUG", s, &byte(debug, 64), 9);
    write("dates of the root", s, &byte(509, 0x16), 0);
    write("dates of LOGS", s, &byte(logs, 0x16), 0);
    write("dates of INFO", s, &byte(info, 0x16), 0);
}

/// Times do not add up over kinds, so a session of mixed writes is timed whole.
fn session(s: &mut Start) {
    let mut r = Rng::new(3);
    let mut changes = vec![];
    for f in s.files.clone().iter().skip(1).take(20) {
        changes.extend(hosts::zero(f, 2));
        changes.push(hosts::turn(&mut r, f));
    }
    let clusters: Vec<u32> = (60_000..60_004).collect();
    changes.extend(hosts::directory(&mut r, 0, 61_000, 40));
    let bytes = hosts::noise(&mut r, 100_000);
    changes.extend(hosts::update(&mut r, &clusters, 60, &bytes));
    r.shuffle(&mut changes);
    set(s);
    let mut calls = vec![];
    for c in &changes {
        let g = original::generated(c.lba);
        let d = c.on(&g);
        original::write(c.lba, &g, &d, false);
        calls.push((c.lba, g, d));
    }
    let calls = &calls;
    let mut rust = || {
        for (lba, g, d) in calls {
            original::write(*lba, g, d, false);
        }
    };
    let mut ours = |s: &mut Start| {
        for (lba, g, d) in calls {
            ours_write(s, *lba, g, d);
        }
    };
    both(&format!("session of {} writes", calls.len()), s, 301, &mut rust, &mut ours);
}

fn update(s: &mut Start, size: u32) {
    let mut r = Rng::new(5);
    let clusters: Vec<u32> = (60_000..60_000 + size.div_ceil(CB)).collect();
    set(s);
    let bytes = hosts::noise(&mut r, size as usize);
    for c in hosts::update(&mut r, &clusters, 60, &bytes) {
        let g = original::generated(c.lba);
        let d = c.on(&g);
        assert!(original::write(c.lba, &g, &d, false).taken);
        assert_eq!(ours_write(s, c.lba, &g, &d), 0);
    }
    let start = clusters[0];
    both("complete, 600,000 bytes", s, 2001, &mut || told(original::complete(start, size)), &mut |s| told(vwrite_complete(&s.w, start, size)));
    both("body check, 600,000 bytes", s, 101, &mut || told(original::body(start, size)), &mut |s| {
        told(vwrite_body_check(&s.w, &s.fat, &s.area, start, size))
    });
}

fn crc(s: &mut Start) {
    for n in [128, 512, 600_000] {
        let bytes = vec![0x5A; n];
        let runs = if n > 1000 { 101 } else { 2001 };
        both(&format!("CRC of {n} bytes"), s, runs, &mut || told(original::crc16(7, &bytes)), &mut |_| told(vwrite_crc16(7, &bytes)));
    }
}

pub fn run() {
    println!("{:<34} {:>4} {:>9} {:>9} {:>6}", "cycles, medians", "rows", "the Rust", "ours", "ratio");
    for n in [0, 50, 400] {
        let mut s = start(n);
        original::set_medium(&s.fat, &s.area);
        let unchanged = Change { lba: 3, edits: vec![] };
        write("FAT sector unchanged", &mut s, &unchanged, 0);
        write("root sector unchanged", &mut s, &Change { lba: 509, edits: vec![] }, 0);
        write("boot byte", &mut s, &Change { lba: 0, edits: vec![(0x25, vec![1])] }, 0);
        write("FAT entry of a free cluster", &mut s, &hosts::entries(&[(60_000, 0xFFFF)], 1)[0], 0);
        write("root record: an update file", &mut s, &hosts::root_slots(40, &[hosts::slot(b"DM40FW  BIN", 0x20, 60_000, 600)])[0], 0);
        write("root record: housekeeping", &mut s, &hosts::root_slots(40, &[hosts::slot(b"$RECYCLEBIN", 0x10, 60_000, 0)])[0], 0);
        write("staged, a new block", &mut s, &hosts::data(60_000, 3, &[7; 512]), 0);
        let held = Change { lba: DATA_START + (60_000 - 2) * SPC + 4, edits: vec![(0, vec![9; 512])] };
        let kept = s.w;
        set(&s);
        let g = original::generated(held.lba);
        original::write(held.lba, &g, &held.on(&g), false);
        ours_write(&mut s, held.lba, &g, &held.on(&g));
        write("staged again", &mut s, &held, 0);
        s.w = kept;
        refusals(&mut s);
        if n > 0 {
            let (f, last) = (s.files[0], s.files[n - 1]);
            write("FAT frees 2 clusters", &mut s, &hosts::zero(&last, 1)[0], 0);
            write("FAT frees 100 clusters", &mut s, &hosts::zero(&f, 1)[0], 0);
            write("directory turn", &mut s, &hosts::turn(&mut Rng::new(1), &last), 0);
            write("refused: part of a live file", &mut s, &hosts::entries(&[(f.vstart as u32, 0)], 1)[0], 13);
        }
        session(&mut s);
        sessions::run(&mut s);
        if n == 50 {
            update(&mut s, 600_000);
            crc(&mut s);
        }
    }
}
