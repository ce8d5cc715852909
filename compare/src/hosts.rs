//! What computers write: deletes, moves to a trash, updates, housekeeping directories, as changes to the sectors that the drive shows.
use crate::rng::Rng;
use crate::tables::shown_dir;
use bindings::{File, Sector, CB, DATA_START, FAT_SECS, FAT_START, ROOT_START, SPC};
use std::collections::BTreeMap;

/// Bytes that change in one sector.
#[derive(Clone, Debug)]
pub struct Change {
    pub lba: u32,
    pub edits: Vec<(usize, Vec<u8>)>,
}

impl Change {
    pub fn on(&self, shown: &Sector) -> Sector {
        let mut d = *shown;
        for (at, bytes) in &self.edits {
            d[*at..*at + bytes.len()].copy_from_slice(bytes);
        }
        d
    }
}

/// Changes of the same sector as one.
pub fn merged(changes: Vec<Change>) -> Vec<Change> {
    let mut by_place: BTreeMap<u32, Vec<(usize, Vec<u8>)>> = BTreeMap::new();
    for c in changes {
        by_place.entry(c.lba).or_default().extend(c.edits);
    }
    by_place.into_iter().map(|(lba, edits)| Change { lba, edits }).collect()
}

/// FAT entries in one of the copies, or in both.
pub fn entries(list: &[(u32, u16)], copies: u32) -> Vec<Change> {
    let one = |copy: u32| {
        list.iter().map(move |&(c, v)| Change {
            lba: FAT_START + copy * FAT_SECS + c / 256,
            edits: vec![((c % 256) as usize * 2, v.to_le_bytes().to_vec())],
        })
    };
    merged((0..copies).flat_map(one).collect())
}

fn slot_place(cluster: u32, slot: u32) -> (u32, usize) {
    (DATA_START + (cluster - 2) * SPC + slot / 16, (slot % 16) as usize * 32)
}

/// The file's directory slot turned to 0xE5, now and then with dates.
pub fn turn(r: &mut Rng, f: &File) -> Change {
    let (lba, at) = slot_place(4 + shown_dir(f.id) as u32, f.slot as u32 % 1024);
    let mut edits = vec![(at, vec![0xE5])];
    if r.one_in(4) {
        edits.push((at + 0x12, vec![r.next() as u8, r.next() as u8]));
    }
    // Anything else that changes with it is no turn.
    if r.one_in(12) {
        edits.push((at + r.pick(&[1, 8, 0x0B, 0x0C, 0x14, 0x15, 0x1A, 0x1C, 0x1F]), vec![r.next() as u8]));
    }
    Change { lba, edits }
}

/// The file's entries zeroed.
pub fn zero(f: &File, copies: u32) -> Vec<Change> {
    let n = f.vsize.div_ceil(CB);
    entries(&(0..n).map(|i| (f.vstart as u32 + i, 0)).collect::<Vec<_>>(), copies)
}

/// A directory slot: name, attribute, start, size.
pub fn slot(name: &[u8; 11], attr: u8, start: u16, size: u32) -> [u8; 32] {
    let mut e = [0; 32];
    e[..11].copy_from_slice(name);
    e[11] = attr;
    e[0x1A..0x1C].copy_from_slice(&start.to_le_bytes());
    e[0x1C..].copy_from_slice(&size.to_le_bytes());
    e
}

/// The long entries of a name, the last first, then the short one.
pub fn named(name: &str, short: &[u8; 11], attr: u8, start: u16, size: u32) -> Vec<[u8; 32]> {
    let sum = short.iter().fold(0u8, |s, &b| s.rotate_right(1).wrapping_add(b));
    let chars: Vec<u16> = name.encode_utf16().collect();
    let n = chars.len().div_ceil(13);
    let mut out = vec![];
    for k in (0..n).rev() {
        let mut e = [0xFF; 32];
        e[0] = k as u8 + 1 | if k + 1 == n { 0x40 } else { 0 };
        (e[11], e[12], e[13], e[0x1A], e[0x1B]) = (0x0F, 0, sum, 0, 0);
        for (i, o) in [1, 3, 5, 7, 9, 14, 16, 18, 20, 22, 24, 28, 30].into_iter().enumerate() {
            let ch = match chars.get(k * 13 + i) {
                Some(&c) => c,
                None if k * 13 + i == chars.len() => 0,
                None => 0xFFFF,
            };
            e[o..o + 2].copy_from_slice(&ch.to_le_bytes());
        }
        out.push(e);
    }
    out.push(slot(short, attr, start, size));
    out
}

/// Slots written into the root from slot `at` on.
pub fn root_slots(at: u32, slots: &[[u8; 32]]) -> Vec<Change> {
    let one = |(i, e): (usize, &[u8; 32])| {
        let s = at + i as u32;
        Change { lba: ROOT_START + s / 16, edits: vec![((s % 16) as usize * 32, e.to_vec())] }
    };
    merged(slots.iter().enumerate().map(one).collect())
}

/// A sector of a host's cluster.
pub fn data(cluster: u32, sector: u32, bytes: &Sector) -> Change {
    Change { lba: DATA_START + (cluster - 2) * SPC + sector, edits: vec![(0, bytes.to_vec())] }
}

/// What the three kinds of hosts keep in the root.
pub const HOUSEKEEPING: [(&str, &[u8; 11]); 9] = [
    (".Trash-1000", b"TRASH-~1   "),
    (".Spotlight-V100", b"SPOTLI~1   "),
    (".fseventsd", b"FSEVEN~1   "),
    (".Trashes", b"TRASHE~1   "),
    ("._.Trashes", b"_~1        "),
    (".DS_Store", b"DS_STO~1   "),
    (".com.apple.timemachine.supported", b"COMAPP~1   "),
    ("System Volume Information", b"SYSTEM~1   "),
    ("$RECYCLE.BIN", b"$RECYCLEBIN"),
];

/// A directory of a host in cluster `c`: its root slots from `at` on, its entry, and its first sectors.
pub fn directory(r: &mut Rng, which: usize, c: u32, at: u32) -> Vec<Change> {
    let (name, short) = HOUSEKEEPING[which];
    let mut all = root_slots(at, &named(name, short, 0x10, c as u16, 0));
    all.extend(entries(&[(c, 0xFFFF)], 1 + r.below(2) as u32));
    let mut s = [0; 512];
    s[..32].copy_from_slice(&slot(b".          ", 0x10, c as u16, 0));
    s[32..64].copy_from_slice(&slot(b"..         ", 0x10, 0, 0));
    all.push(data(c, 0, &s));
    for k in 1..r.range(1, 64) {
        all.push(data(c, k, &[0; 512]));
    }
    all
}

/// A sector of a host's directory that names files; now and then a slot that names none.
pub fn naming(r: &mut Rng, files: &[File]) -> Sector {
    let mut s = [0; 512];
    for (i, f) in files.iter().take(14).enumerate() {
        let mut e = slot(b"LOG007  CSV", 0x20, f.vstart, f.vsize);
        if r.one_in(6) {
            e[r.pick(&[0, 0x0B, 0x14, 0x1A, 0x1B, 0x1C, 0x1F])] ^= r.pick(&[0x01, 0x08, 0x10, 0xE5]);
        }
        s[64 + i * 32..96 + i * 32].copy_from_slice(&e);
    }
    s
}

/// An update copied: its root slot, its chain over the clusters, its sectors, with anything behind its end in the last one.
pub fn update(r: &mut Rng, clusters: &[u32], at: u32, bytes: &[u8]) -> Vec<Change> {
    let name: &[u8; 11] = r.pick(&[b"DM40FW  BIN", b"dm40_opebin", b"DM40    BIN"]);
    let mut all = root_slots(at, &[slot(name, 0x20, clusters[0] as u16, bytes.len() as u32)]);
    let chain: Vec<(u32, u16)> = clusters.iter().enumerate().map(|(i, &c)| (c, clusters.get(i + 1).map_or(0xFFFF, |&n| n as u16))).collect();
    all.extend(entries(&chain, 1 + r.below(2) as u32));
    for (k, part) in bytes.chunks(512).enumerate() {
        let mut s = [r.next() as u8; 512];
        s[..part.len()].copy_from_slice(part);
        all.push(data(clusters[k / SPC as usize], k as u32 % SPC, &s));
    }
    all
}

/// Bytes of no file in particular, one sector in five zeros.
pub fn noise(r: &mut Rng, size: usize) -> Vec<u8> {
    let mut bytes = vec![0; size];
    for sector in bytes.chunks_mut(512) {
        if !r.one_in(5) {
            sector.iter_mut().for_each(|b| *b = r.next() as u8);
        }
    }
    bytes
}
