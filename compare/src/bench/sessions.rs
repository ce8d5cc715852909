//! The calls that make a session: ticks, releases, resets, the finder and reports, with and without moved files. A start has no counterpart in the Rust.
use super::*;

const TURNED: u16 = 0x1000;
const MOVED: u16 = 0x8000;

/// Four clusters staged whole on both sides, with a directory in their first sectors that names the first files, of which `moved` are turned and moved.
fn staged(s: &mut Start, moved: usize) {
    set(s);
    for c in 60_000..60_004u32 {
        for sector in 0..SPC {
            let mut bytes = [c as u8 ^ sector as u8; 512];
            for (k, f) in s.files.iter().take(moved).enumerate().filter(|(k, _)| *k as u32 / 4 == c - 60_000 && sector == 0) {
                bytes[32 * (k % 4)..][..32].copy_from_slice(&hosts::slot(b"LOG001  CSV", 0x20, f.vstart, f.vsize));
            }
            let change = hosts::data(c, sector, &bytes);
            let g = original::generated(change.lba);
            let d = change.on(&g);
            assert!(original::write(change.lba, &g, &d, false).taken);
            assert_eq!(ours_write(s, change.lba, &g, &d), 0);
        }
    }
    s.files.iter_mut().take(moved).for_each(|f| f.id |= TURNED | MOVED);
}

fn releases(s: &mut Start, words: &str) {
    let name = |call: &str| format!("{call}{words}");
    both(&name("release_all"), s, 201, &mut || told(original::release_all(false)), &mut |s| {
        told(vwrite_release_all(&mut s.w, &mut s.files, false, &s.fat, &s.area))
    });
    both(&name("release"), s, 201, &mut || told(original::release()), &mut |s| told(vwrite_release(&mut s.w, &mut s.files, &s.fat, &s.area)));
    both(&name("vdisk's bus reset"), s, 201, &mut original::vdisk_on_bus_reset, &mut |s| {
        told(vdisk_on_bus_reset(&mut s.w, &mut s.files, &s.fat, &s.area))
    });
}

fn small(s: &mut Start) {
    let quiet = s.w.now_ms + 1;
    both("tick, nothing due", s, 2001, &mut || original::poll(quiet, true), &mut |s| {
        told(vwrite_poll(&mut s.w, &mut s.files, quiet, true, &s.fat, &s.area))
    });
    both("vwrite's bus reset", s, 2001, &mut original::vwrite_on_bus_reset, &mut |s| vwrite_on_bus_reset(&mut s.w));
    both("set_read_only", s, 2001, &mut || original::set_read_only(false), &mut |s| vwrite_set_read_only(&mut s.w, false));
    both("finder, nothing handed", s, 2001, &mut || told(original::handed()), &mut |s| told(vwrite_find_handed(&s.files)));
    let c = s.files.last().map_or(60_000, |f| f.vstart as u32);
    both("owner", s, 2001, &mut || told(original::owner(c)), &mut |s| told(vwrite_owner(&s.files, s.w.first, c)));
    both("pair", s, 2001, &mut || told(original::pair(60_000)), &mut |s| told(vwrite_pair(&s.w, 60_000)));
    both("root_rec", s, 2001, &mut || told(original::root_rec(40)), &mut |s| told(vwrite_root_rec(&s.w, 40)));
}

/// The last file handed: found, and reported gone.
fn handed(s: &mut Start) {
    let Some(row) = s.files.len().checked_sub(1) else { return };
    let kept = s.files[row].id;
    s.files[row].id |= 0x3000;
    both("finder, the last file", s, 2001, &mut || told(original::handed()), &mut |s| told(vwrite_find_handed(&s.files)));
    both("report of the last file", s, 2001, &mut || original::report_gone(row), &mut |s| told(vwrite_report_gone(&mut s.files, row)));
    s.files[row].id = kept;
}

/// A start by itself: the Rust makes its table where it lists the files, which is not ported.
fn starts(s: &mut Start) {
    let first = s.files.first().map_or(8, |f| f.vstart as u32);
    let mut times = vec![];
    for _ in 0..201 {
        let mut w = s.w;
        times.push(cycles(|| told(vwrite_start(&mut w, &s.files, first))));
    }
    println!("{:<34} {:>4} {:>9} {:>9}", "start", s.files.len(), "-", median(times));
}

pub fn run(s: &mut Start) {
    starts(s);
    small(s);
    handed(s);
    let (w, files) = (s.w, s.files.clone());
    for moved in [0, 1, 16] {
        if moved > files.len() {
            continue;
        }
        staged(s, moved);
        releases(s, &format!(", {moved} moved"));
        (s.w, s.files) = (w, files.clone());
    }
}
