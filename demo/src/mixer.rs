//! The mixer's side: the state, the table and the medium, each written sector judged by the proved library, and all of it recorded.
use crate::shown::{short_name, Drive};
use bindings::calls::*;
use bindings::{File, Sector, State, CB};
use std::fmt::Write as _;
use std::io::Write;
use std::time::Instant;

pub const FIRST: u32 = 8;

pub struct Mixer {
    w: State,
    files: Vec<File>,
    fat: Vec<u16>,
    area: Vec<u8>,
    since: Instant,
    record: Box<dyn Write + Send>,
    calls: usize,
}

/// Ten files in the three directories, of one to three clusters.
fn table() -> Vec<File> {
    let mut c = FIRST as u16;
    let mut slots = [2u16; 3];
    (0..10u16)
        .map(|i| {
            let (kind, size) = (i % 3, 9_000 * (i as u32 + 1));
            let f = File { id: kind << 10 | (i / 3 + 1), slot: slots[kind as usize], vstart: c, src: 300 + 7 * i, ssize: 1_000, vsize: size };
            slots[kind as usize] += 1;
            c += size.div_ceil(CB) as u16;
            f
        })
        .collect()
}

impl Mixer {
    pub fn new(record: Box<dyn Write + Send>) -> Mixer {
        let mut m = Mixer {
            w: State::new(FIRST),
            files: table(),
            fat: vec![0; 4_094],
            area: vec![0xFF; 4_092 * 4096],
            since: Instant::now(),
            record,
            calls: 0,
        };
        let rows: String = m.files.iter().map(|f| format!(" {}:{}:{}:{}:{}:{}", f.id, f.slot, f.vstart, f.src, f.ssize, f.vsize)).collect();
        m.note(&format!("medium {} {} 255\nstart {FIRST}{rows}\nrw 1", m.fat.len(), m.area.len()));
        assert_eq!(vwrite_start(&mut m.w, &m.files, FIRST), 0, "the table is one that a start takes");
        vwrite_set_read_only(&mut m.w, false);
        vwrite_on_bus_reset(&mut m.w);
        m
    }

    /// Calls, one a line, into the recording.
    fn note(&mut self, lines: &str) {
        self.calls += lines.lines().count();
        writeln!(self.record, "{lines}").expect("the recording can be written");
    }

    pub fn shown(&self, lba: u32) -> Sector {
        Drive { w: &self.w, files: &self.files, fat: &self.fat, area: &self.area }.sector(lba)
    }

    /// A tick of the clock; a computer that holds the connection has the drive mounted.
    fn tick(&mut self) {
        let clock = self.since.elapsed().as_millis() as u64;
        self.note(&format!("poll {clock} 0 1"));
        vwrite_poll(&mut self.w, &mut self.files, clock, true, &self.fat, &self.area);
    }

    pub fn write(&mut self, lba: u32, written: &Sector) -> u8 {
        self.tick();
        let shown = self.shown(lba);
        let mut line = format!("write {lba} 0 1 ");
        if shown == [0; 512] {
            line.push('z');
        } else {
            shown.iter().for_each(|b| write!(line, "{b:02x}").unwrap());
        }
        line.push_str(" =");
        for (k, i) in (0..512).filter(|&i| shown[i] != written[i]).enumerate() {
            write!(line, "{}{i}:{:02x}", if k == 0 { '@' } else { ',' }, written[i]).unwrap();
        }
        self.note(&line);
        vwrite_write(&mut self.w, &mut self.files, lba, &shown, written, false, &self.fat, &mut self.area)
    }

    /// The computer is gone: the session ends, and the files that are handed are told.
    pub fn ends(&mut self) -> Vec<String> {
        self.note("release");
        let end = vwrite_release(&mut self.w, &mut self.files, &self.fat, &self.area);
        if end.ended == 2 {
            // Put off for an update that nobody decides here: the end is due after 1,500 ms.
            let clock = self.w.now_ms + 1_500;
            vwrite_poll(&mut self.w, &mut self.files, clock, false, &self.fat, &self.area);
            self.note(&format!("poll {clock} 0 0"));
        }
        self.note("handed");
        writeln!(self.record, "end {}", self.calls).expect("the recording can be written");
        self.record.flush().expect("the recording can be written");
        let handed = |f: &&File| vwrite_find_handed(std::slice::from_ref(*f)).found;
        self.files.iter().filter(handed).map(|f| String::from_utf8_lossy(&short_name(f.id)).into_owned()).collect()
    }
}
