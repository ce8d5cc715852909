//! Names of root slots at every boundary: each housekeeping prefix whole, one character short and one more, in long entries that end in each way and
//! stand in each place, and short names with blanks in each place.
use crate::both::Both;
use crate::hosts;
use crate::rng::Rng;
use bindings::{State, ROOT_START};

const PREFIXES: [&str; 10] = [
    ".trash",
    "._",
    ".ds_store",
    ".fseventsd",
    ".spotlight-v100",
    ".temporaryitems",
    ".metadata_never_index",
    ".com.apple.",
    "system volume information",
    "$recycle.bin",
];

/// Short names that are housekeeping or nearly so, by where their blanks and their dot come to stand.
const SHORT: [&[u8; 11]; 10] = [
    b"$RECYCLEBIN",
    b"$RECYCLEBI ",
    b"._ABCDEFGHI",
    b". _ABCDEFGH",
    b".TRASH1 BIN",
    b"        _AB",
    b"         _A",
    b"          _",
    b"DM40FW  BIN",
    b"System~1   ",
];

/// How the long entries of a name are made; `true` everywhere is as a computer makes them.
#[derive(Clone, Copy)]
struct Way {
    /// What stands behind the last character: 0 and then 0xFFFF, or 0xFFFF alone.
    zero: bool,
    /// 0x40 on the last entry.
    last: bool,
    /// Taken over the number of each entry, and its attribute.
    bits: u8,
    attribute: u8,
    /// The entry whose number is wrong, none where there is no such entry.
    wrong: usize,
}

const AS_MADE: Way = Way { zero: true, last: true, bits: 0, attribute: 0x0F, wrong: 99 };

pub fn all(r: &mut Rng, both: &mut Both) {
    let mut w = State::new(7);
    w.rw = true;
    both.set(w, &[], &[0; 3], &[0; 4096]);
    let prefix = r.pick(&PREFIXES);
    for name in variants(r, prefix) {
        for way in ways(r) {
            let slots = entries(&name, way);
            let at = r.pick(&[7, 8, 13, 14, 15, 16, 17, 29, 31, 33, 508]).min(512 - slots.len() as u32);
            attempt(both, w, at, &slots);
            standing(r, both, w, &slots);
        }
    }
    for short in SHORT {
        blanks(r, both, w, short);
        for first in [0, 0xFFFF, b'x' as u16, 0x7F, 0x80] {
            begins(r, both, w, short, first);
        }
    }
    split(r, both, w, prefix);
}

/// A long entry that begins with a given character before a short name that may be housekeeping: where the character ends the name at once, the short
/// name is read.
fn begins(r: &mut Rng, both: &mut Both, w: State, short: &[u8; 11], first: u16) {
    let name = "y".repeat(r.range(1, 20) as usize);
    let mut slots = hosts::named(&name, short, 0x10, 0, 0);
    let n = slots.len();
    slots[n - 2][1..3].copy_from_slice(&first.to_le_bytes());
    attempt(both, w, r.range(7, 40), &slots);
}

/// The prefix whole, one short, one more, with a wrong character, in capitals, and continued for several entries.
fn variants(r: &mut Rng, prefix: &str) -> Vec<String> {
    let n = prefix.len();
    let mut wrong = prefix.as_bytes().to_vec();
    let any = r.below(n);
    let at = r.pick(&[0, n - 1, any]);
    wrong[at] = wrong[at].wrapping_add(1);
    let far = format!("{}{}", prefix, "x".repeat(r.below(40)));
    vec![
        prefix.to_string(),
        prefix[..n - 1].to_string(),
        format!("{prefix}x"),
        prefix.to_uppercase(),
        format!("{}\u{e9}", &prefix[..n - 1]),
        format!("x{prefix}"),
        String::from_utf8_lossy(&wrong).into_owned(),
        far,
    ]
}

fn ways(r: &mut Rng) -> [Way; 10] {
    [
        AS_MADE,
        Way { zero: false, ..AS_MADE },
        Way { last: false, ..AS_MADE },
        Way { last: false, zero: false, ..AS_MADE },
        Way { bits: r.pick(&[0x20, 0x80, 0xA0]), ..AS_MADE },
        Way { bits: 0x40, ..AS_MADE },
        Way { attribute: r.pick(&[0x4F, 0xCF, 0x1F, 0x0E, 0x2F, 0x00]), ..AS_MADE },
        Way { wrong: 0, ..AS_MADE },
        Way { wrong: 1, ..AS_MADE },
        Way { wrong: 2, ..AS_MADE },
    ]
}

/// The long entries, the last first, then a short one that no prefix begins.
fn entries(name: &str, way: Way) -> Vec<[u8; 32]> {
    let mut slots = hosts::named(name, b"NONAME~1   ", 0x10, 0, 0);
    let n = slots.len() - 1;
    for (i, e) in slots[..n].iter_mut().enumerate() {
        let k = n - 1 - i;
        e[0] = (e[0] & if way.last { 0xFF } else { 0xBF } | way.bits) ^ if k == way.wrong { 7 } else { 0 };
        e[11] = way.attribute;
        if !way.zero {
            for o in [1, 3, 5, 7, 9, 14, 16, 18, 20, 22, 24, 28, 30] {
                if e[o..o + 2] == [0, 0] {
                    e[o..o + 2].copy_from_slice(&[0xFF, 0xFF]);
                }
            }
        }
    }
    slots
}

/// Written into a fresh state from slot `at` on, sector by sector, so that entries of an earlier sector are records.
fn attempt(both: &mut Both, w: State, at: u32, slots: &[[u8; 32]]) {
    both.set_session(w, &[]);
    for change in hosts::root_slots(at, slots) {
        let shown = original::generated(change.lba);
        both.write(change.lba, &shown, &change.on(&shown), false);
    }
}

/// The long entries stand in the shown sector already, down to the root's own slots, and the short one alone is written behind them.
fn standing(r: &mut Rng, both: &mut Both, w: State, slots: &[[u8; 32]]) {
    both.set_session(w, &[]);
    let sector = r.below(2) as u32;
    let at = r.pick(&[7, 8, 9, 10, 15]);
    let mut shown = original::generated(ROOT_START + sector);
    let long = &slots[..slots.len() - 1];
    for (k, e) in long.iter().rev().enumerate().take(at) {
        shown[(at - 1 - k) * 32..(at - k) * 32].copy_from_slice(e);
    }
    let mut written = shown;
    written[at * 32..at * 32 + 32].copy_from_slice(&slots[slots.len() - 1]);
    both.write(ROOT_START + sector, &shown, &written, false);
}

/// A prefix of which the long name holds the first character alone, and the short one the others.
fn split(r: &mut Rng, both: &mut Both, w: State, prefix: &str) {
    let mut short = [b' '; 11];
    let rest = prefix[1..].to_uppercase();
    let n = rest.len().min(8);
    short[..n].copy_from_slice(&rest.as_bytes()[..n]);
    let slots = hosts::named(&prefix[..1], &short, 0x10, 0, 0);
    attempt(both, w, r.range(7, 40), &slots);
}

/// A short name with a blank in each place, and in each two, with any attribute, and letters behind the name.
fn blanks(r: &mut Rng, both: &mut Both, w: State, short: &[u8; 11]) {
    let shown = {
        both.set_session(w, &[]);
        original::generated(ROOT_START + 1)
    };
    for a in 0..11 {
        for b in a..11 {
            let mut name = *short;
            (name[a], name[b]) = (b' ', b' ');
            let any = r.next() as u8;
            let mut slot = hosts::slot(&name, r.pick(&[0x10, 0x20, 0x21, 0x01, any]), 0, 0);
            slot[12..20].fill(b'N');
            let mut written = shown;
            written[160..192].copy_from_slice(&slot);
            both.set_session(w, &[]);
            both.write(ROOT_START + 1, &shown, &written, false);
        }
    }
}
