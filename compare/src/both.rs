//! One call made on both sides from equal states; answer, state, table and medium compared after it.
use bindings::calls::*;
use bindings::{File, Sector, State};
use std::collections::BTreeMap;

mod sessions;

/// How often each call was made, and each number answered.
#[derive(Default)]
pub struct Counts {
    pub calls: BTreeMap<&'static str, u64>,
    pub numbers: [u64; 22],
    /// Bodies made valid, and made wrong.
    pub valid: u64,
    pub wrong: u64,
}

impl Counts {
    fn add(&mut self, call: &'static str, number: u8) {
        *self.calls.entry(call).or_default() += 1;
        self.numbers[number as usize] += 1;
    }
}

/// Both sides. Ours is here; the Rust's is in the statics of `original` and, with numbers, of `numbered`.
pub struct Both {
    pub w: State,
    pub files: Vec<File>,
    pub fat: Vec<u16>,
    pub area: Vec<u8>,
    lent: (usize, usize),
    pub counts: Counts,
    /// The last calls, told where a difference is found.
    last: String,
}

/// The error of a number, as document 01 lists them.
fn error_of(number: u8) -> u8 {
    match number {
        2 | 17 => 0,
        19 => 2,
        _ => 1,
    }
}

impl Both {
    pub fn new() -> Both {
        let both = Both { w: State::new(7), files: vec![], fat: vec![], area: vec![], lent: (0, 0), counts: Counts::default(), last: String::new() };
        original::set_table(&[], 7);
        numbered::set_table(&[], 7);
        both
    }

    /// The state, the table and the medium, set directly on both sides.
    pub fn set(&mut self, w: State, files: &[File], fat: &[u16], area: &[u8]) {
        self.fat = fat.to_vec();
        self.area = area.to_vec();
        self.lent = (fat.len(), area.len());
        original::set_medium(fat, area);
        numbered::set_medium(fat, area);
        self.set_session(w, files);
    }

    pub fn set_session(&mut self, w: State, files: &[File]) {
        self.w = w;
        self.files = files.to_vec();
        original::set_table(files, w.first);
        numbered::set_table(files, w.first);
        original::set_state(&w);
        numbered::set_state(&w);
        self.same();
    }

    /// Only the first entries and bytes are lent from now on.
    pub fn lend(&mut self, entries: usize, bytes: usize) {
        self.lent = (entries, bytes);
        original::lend(entries, bytes);
        numbered::lend(entries, bytes);
    }

    pub fn set_entry(&mut self, i: usize, v: u16) {
        self.fat[i] = v;
        original::set_entry(i, v);
        numbered::set_entry(i, v);
    }

    pub fn set_area(&mut self, at: usize, bytes: &[u8]) {
        self.area[at..at + bytes.len()].copy_from_slice(bytes);
        original::set_area(at, bytes);
        numbered::set_area(at, bytes);
    }

    /// Of long values only the parts that differ are told.
    fn differ(&self, what: &str, rust: impl std::fmt::Debug, ours: impl std::fmt::Debug) -> ! {
        let (short, rust, ours) = (format!("{rust:?}").len() < 200, format!("{rust:#?}"), format!("{ours:#?}"));
        let parts = rust.lines().zip(ours.lines()).enumerate().filter(|(_, (a, b))| short || a != b).take(20);
        let told: Vec<String> = parts.map(|(i, (a, b))| format!("  {i:>5}  the Rust: {:<30}  ours: {}", a.trim(), b.trim())).collect();
        panic!("{what} differs after {}\n{}", self.last, told.join("\n"));
    }

    /// State, table and medium are equal.
    fn same(&self) {
        let s = original::state();
        if s != self.w {
            self.differ("the state", s, self.w);
        }
        let t = original::table();
        if t != self.files {
            self.differ("the table", t, &self.files);
        }
        if original::area() != &self.area[..] {
            let at = original::area().iter().zip(&self.area).position(|(a, b)| a != b);
            self.differ("the medium", at, "the first place");
        }
    }

    fn equal<T: PartialEq + std::fmt::Debug>(&self, what: &str, rust: T, ours: T) {
        if rust != ours {
            self.differ(what, rust, ours);
        }
    }

    pub fn write(&mut self, lba: u32, shown: &Sector, written: &Sector, busy: bool) -> u8 {
        self.last.clear();
        self.last += &format!("write {lba} busy {busy}");
        let rust = original::write(lba, shown, written, busy);
        let told = numbered::write(lba, shown, written, busy);
        let n = self.ours_written(lba, shown, written, busy);
        self.counts.add("write", n);
        self.equal("taken", rust.taken, n == 0);
        self.equal("taken, with numbers", told.taken, n == 0);
        self.equal("the number", told.number, n);
        if n != 0 {
            self.equal("the error", rust.err, error_of(n));
        }
        self.same();
        n
    }

    fn ours_written(&mut self, lba: u32, shown: &[u8], written: &[u8], busy: bool) -> u8 {
        let (fat, area) = (&self.fat[..self.lent.0], &mut self.area[..self.lent.1]);
        vwrite_write(&mut self.w, &mut self.files, lba, shown, written, busy, fat, area)
    }

    /// What the Rust has no answer for: a sector that isn't 512 bytes (1), and more than 400 files (10). Nothing changes.
    pub fn write_refused(&mut self, lba: u32, shown: &[u8], written: &[u8], files: &[File]) -> u8 {
        self.last = format!("write {lba} of {} and {} bytes, {} files", shown.len(), written.len(), files.len());
        let kept = std::mem::replace(&mut self.files, files.to_vec());
        let n = self.ours_written(lba, shown, written, false);
        self.equal("the given table", &files.to_vec(), &self.files.clone());
        self.files = kept;
        let expected = if shown.len() != 512 || written.len() != 512 { 1 } else { 10 };
        self.counts.add("write", n);
        self.equal("the number", expected, n);
        self.same();
        n
    }

    pub fn staged_read(&mut self, c: u32, s: u32) {
        self.last = format!("staged_read {c} {s}");
        let (mut a, mut b) = ([0x5A; 512], [0x5A; 512]);
        let r = vwrite_staged_read(&self.w, &self.fat[..self.lent.0], &self.area[..self.lent.1], c, s, &mut b);
        self.counts.add("staged_read", r.no);
        if s >= 64 {
            self.equal("the answer", Staged { no: 2, staged: false }, r);
        } else {
            let staged = original::staged_read(c, s, &mut a);
            self.equal("the answer", Staged { no: 0, staged }, r);
        }
        self.equal("the sector", a, b);
        self.same();
    }

    pub fn pair(&mut self, c: u32) {
        self.last = format!("pair {c}");
        let r = vwrite_pair(&self.w, c);
        self.counts.add("pair", 0);
        let v = original::pair(c);
        self.equal("the answer", PairAnswer { found: v.is_some(), v: v.unwrap_or(0) }, r);
    }

    pub fn root_rec(&mut self, slot: usize) {
        self.last = format!("root_rec {slot}");
        let r = vwrite_root_rec(&self.w, slot);
        self.counts.add("root_rec", 0);
        let e = original::root_rec(slot);
        self.equal("the answer", RootRecord { found: e.is_some(), e: e.unwrap_or([0; 32]) }, r);
    }

    pub fn queries(&mut self, mounted: bool) {
        self.last = format!("queries, mounted {mounted}");
        let ours = (vwrite_boot_state(&self.w), vwrite_fat1(&self.w), vwrite_frozen(&self.w, mounted));
        self.equal("boot_state, fat1, frozen", (original::boot_state(), original::fat1(), original::frozen(mounted)), ours);
        for call in ["boot_state", "fat1", "frozen"] {
            self.counts.add(call, 0);
        }
    }

    pub fn complete(&mut self, start: u32, size: u32) {
        self.last = format!("complete {start} {size}");
        let r = vwrite_complete(&self.w, start, size);
        self.counts.add("complete", 0);
        let rust = original::complete(start, size);
        let (slots, n) = rust.unwrap_or(([0; bindings::NST], 0));
        self.equal("the answer", Chain { found: rust.is_some(), slots, n }, r);
    }

    pub fn layout(&mut self, c: u32, size: u32) {
        self.last = format!("owner {c}, nclus {size}");
        let ours = vwrite_owner(&self.files, self.w.first, c);
        let (owner, row) = original::owner(c);
        self.equal("owner", Own { no: 0, owner, row }, ours);
        let kind = original::dir_kind(c);
        self.equal("dir_kind", Dir { found: kind.is_some(), kind: kind.unwrap_or(0) as u16 }, vwrite_dir_kind(c));
        self.equal("nclus", original::nclus(size), vwrite_nclus(size));
        for call in ["owner", "dir_kind", "nclus"] {
            self.counts.add(call, 0);
        }
    }
    pub fn crc16(&mut self, c: u16, bytes: &[u8]) {
        self.last = format!("crc16 {c} of {} bytes", bytes.len());
        let ours = vwrite_crc16(c, bytes);
        self.counts.add("crc16", 0);
        self.equal("the answer", original::crc16(c, bytes), ours);
    }
}
