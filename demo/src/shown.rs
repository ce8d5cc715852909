//! The sectors that the drive shows: a FAT16 volume made up as it is read, with what the host wrote laid over it.
use bindings::calls::*;
use bindings::{File, Sector, State, CB, DATA_START, FAT_SECS, FAT_START, ROOT_START, SPC, TOTAL};

const DIRECTORIES: [&[u8; 11]; 3] = [b"LOGS       ", b"SCOPE      ", b"SHOTS      "];
const README: &[u8] = b"The session files of a mixer, shown by a demonstration of its judge.\r\n";

/// What is read to show a sector.
pub struct Drive<'a> {
    pub w: &'a State,
    pub files: &'a [File],
    pub fat: &'a [u16],
    pub area: &'a [u8],
}

fn slot(name: &[u8; 11], attribute: u8, start: u16, size: u32) -> [u8; 32] {
    let mut e = [0; 32];
    e[..11].copy_from_slice(name);
    e[11] = attribute;
    // 2026-11-16, as the day of creation, access and writing.
    for at in [0x10, 0x12, 0x18] {
        e[at..at + 2].copy_from_slice(&(46u16 << 9 | 11 << 5 | 16).to_le_bytes());
    }
    e[0x1A..0x1C].copy_from_slice(&start.to_le_bytes());
    e[0x1C..].copy_from_slice(&size.to_le_bytes());
    e
}

/// The short name of a file by its kind and number.
pub fn short_name(id: u16) -> [u8; 11] {
    let (prefix, ending) = [("LOG", "CSV"), ("SCOP", "CSV"), ("S", "BMP"), ("FAST", "CSV")][(id >> 10 & 3) as usize];
    let name = format!("{:<8}{ending}", format!("{prefix}{:03}", id & 0x3FF));
    name.as_bytes().try_into().unwrap()
}

fn shown_dir(id: u16) -> u16 {
    if id >> 10 & 3 == 3 {
        0
    } else {
        id >> 10 & 3
    }
}

/// A byte of a file's content: lines of a table.
fn content(f: &File, at: u32) -> u8 {
    let line = format!("{:>9};{:>20}\r\n", at / 32, f.id & 0xFFF);
    line.as_bytes()[(at % 32) as usize]
}

impl Drive<'_> {
    pub fn sector(&self, lba: u32) -> Sector {
        match lba {
            0 => self.boot(),
            FAT_START..=508 => self.fat_sector((lba - FAT_START) % FAT_SECS),
            ROOT_START..=540 => self.root((lba - ROOT_START) as usize),
            _ => self.data((lba - DATA_START) / SPC + 2, (lba - DATA_START) % SPC),
        }
    }

    fn boot(&self) -> Sector {
        let mut b = [0; 512];
        b[..3].copy_from_slice(&[0xEB, 0x3C, 0x90]);
        b[3..11].copy_from_slice(b"TERZOULE");
        b[0x0B..0x0D].copy_from_slice(&512u16.to_le_bytes());
        (b[0x0D], b[0x0E], b[0x10], b[0x15]) = (SPC as u8, 1, 2, 0xF8);
        b[0x11..0x13].copy_from_slice(&512u16.to_le_bytes());
        b[0x16..0x18].copy_from_slice(&(FAT_SECS as u16).to_le_bytes());
        b[0x18..0x1C].copy_from_slice(&[63, 0, 255, 0]);
        b[0x20..0x24].copy_from_slice(&TOTAL.to_le_bytes());
        (b[0x24], b[0x26]) = (0x80, 0x29);
        b[0x25] = vwrite_boot_state(self.w);
        b[0x27..0x2B].copy_from_slice(b"\x16\x11\x26\x20");
        b[0x2B..0x36].copy_from_slice(b"MIXER      ");
        b[0x36..0x3E].copy_from_slice(b"FAT16   ");
        (b[0x1FE], b[0x1FF]) = (0x55, 0xAA);
        b
    }

    fn entry(&self, c: u32) -> u16 {
        let pair = vwrite_pair(self.w, c);
        let own = vwrite_owner(self.files, self.w.first, c);
        match c {
            0 => 0xFFF8,
            1 => vwrite_fat1(self.w),
            2..=7 => 0xFFFF,
            _ if pair.found => pair.v,
            _ if own.owner == 2 && self.files[own.row].id & 0x2000 == 0 => {
                let f = &self.files[own.row];
                let last = f.vstart as u32 + f.vsize.div_ceil(CB) - 1;
                if c == last {
                    0xFFFF
                } else {
                    c as u16 + 1
                }
            }
            _ => 0,
        }
    }

    fn fat_sector(&self, s: u32) -> Sector {
        let mut b = [0; 512];
        for i in 0..256 {
            b[i * 2..i * 2 + 2].copy_from_slice(&self.entry(s * 256 + i as u32).to_le_bytes());
        }
        b
    }

    fn root(&self, s: usize) -> Sector {
        let mut b = [0; 512];
        for i in 0..16 {
            let e = match s * 16 + i {
                0 => slot(b"MIXER      ", 0x08, 0, 0),
                1 => slot(b"README  TXT", 0x01, 7, README.len() as u32),
                2 => slot(b"INFO       ", 0x10, 2, 0),
                3 => slot(b"DEBUG      ", 0x10, 3, 0),
                k @ 4..=6 => slot(DIRECTORIES[k - 4], 0x10, k as u16, 0),
                k => vwrite_root_rec(self.w, k).e,
            };
            b[i * 32..i * 32 + 32].copy_from_slice(&e);
        }
        b
    }

    fn directory(&self, c: u32, s: u32) -> Sector {
        let mut b = [0; 512];
        if s == 0 {
            b[..32].copy_from_slice(&slot(b".          ", 0x10, c as u16, 0));
            b[32..64].copy_from_slice(&slot(b"..         ", 0x10, 0, 0));
        }
        for f in self.files.iter().filter(|f| c >= 4 && shown_dir(f.id) as u32 == c - 4 && f.slot as u32 / 16 == s) {
            let at = (f.slot % 16) as usize * 32;
            b[at..at + 32].copy_from_slice(&slot(&short_name(f.id), 0x01, f.vstart, f.vsize));
            if f.id & 0x1000 != 0 {
                b[at] = 0xE5;
            }
        }
        b
    }

    fn data(&self, c: u32, s: u32) -> Sector {
        let mut b = [0; 512];
        if c < 7 {
            return self.directory(c, s);
        }
        if c == 7 {
            if s == 0 {
                b[..README.len()].copy_from_slice(README);
            }
            return b;
        }
        let staged = vwrite_staged_read(self.w, self.fat, self.area, c, s, &mut b);
        let own = vwrite_owner(self.files, self.w.first, c);
        if !staged.staged && own.owner == 2 && self.files[own.row].id & 0x6000 == 0 {
            let f = &self.files[own.row];
            let from = (c - f.vstart as u32) * CB + s * 512;
            (0..512).filter(|&i| from + i < f.vsize).for_each(|i| b[i as usize] = content(f, from + i));
        }
        b
    }
}
