//! A session over the proved library: the state, the table and the medium, and the calls on them.
use bindings::calls::*;
use bindings::{File, Sector, State};
use line_form::{Call, Direct};

pub struct Session {
    pub w: State,
    pub files: Vec<File>,
    pub fat: Vec<u16>,
    pub area: Vec<u8>,
    pub lent: (usize, usize),
    /// A start of the recording was taken.
    pub started: bool,
}

/// What a call answers.
pub enum Answer {
    Nothing,
    Number(u8),
    Ended(End),
    Handed(Vec<usize>),
}

impl Session {
    /// Before a recording has a table: a start with an empty one, of a state of zeros.
    pub fn new() -> Session {
        let mut fresh = Session { w: State::new(0), files: vec![], fat: vec![], area: vec![], lent: (0, 0), started: false };
        assert_eq!(fresh.start(7, vec![]), 0, "a start takes an empty table");
        fresh.started = false;
        fresh
    }

    /// The rows whose file is handed: the finder is asked of each row by itself.
    pub fn handed(&self) -> Vec<usize> {
        (0..self.files.len()).filter(|&j| self.is_handed(j)).collect()
    }

    pub fn is_handed(&self, j: usize) -> bool {
        vwrite_find_handed(&self.files[j..=j]).found
    }

    pub fn write(&mut self, lba: u32, shown: &Sector, written: &Sector, busy: bool) -> u8 {
        let (fat, area) = (&self.fat[..self.lent.0], &mut self.area[..self.lent.1]);
        vwrite_write(&mut self.w, &mut self.files, lba, shown, written, busy, fat, area)
    }

    /// Does a sector staged in state `w` name the file, as the medium stands.
    pub fn names(&self, w: &State, f: &File) -> bool {
        vwrite_named(w, &self.fat[..self.lent.0], &self.area[..self.lent.1], f.vstart, f.vsize)
    }

    fn start(&mut self, first: u32, files: Vec<File>) -> u8 {
        let n = vwrite_start(&mut self.w, &files, first);
        if n == 0 {
            self.files = files;
            self.started = true;
        }
        n
    }

    fn ends(&mut self, call: &Call) -> End {
        let (w, files, fat, area) = (&mut self.w, &mut self.files, &self.fat[..self.lent.0], &self.area[..self.lent.1]);
        match *call {
            Call::Poll { clock, mounted } => vwrite_poll(w, files, clock, mounted, fat, area),
            Call::ReleaseAll { reset } => vwrite_release_all(w, files, reset, fat, area),
            Call::BusReset => vdisk_on_bus_reset(w, files, fat, area),
            _ => vwrite_release(w, files, fat, area),
        }
    }

    fn set_mode(&mut self, call: &Call) {
        match *call {
            Call::Rw(on) => {
                vwrite_set_read_only(&mut self.w, !on);
                vwrite_on_bus_reset(&mut self.w);
            }
            Call::SetReadOnly(on) => vwrite_set_read_only(&mut self.w, on),
            _ => vwrite_on_bus_reset(&mut self.w),
        }
    }

    /// What the lines of the medium set; wrong where they reach past it.
    fn set_medium(&mut self, call: Call) -> Result<(), String> {
        let (entries, bytes) = (self.fat.len(), self.area.len());
        match call {
            Call::Medium { entries, bytes, fill } => {
                if entries > 65_526 || bytes > 65_524 * 4096 {
                    return Err("a medium has up to 65,526 entries and 268,386,304 bytes".to_string());
                }
                (self.fat, self.area, self.lent) = (vec![0; entries], vec![fill; bytes], (entries, bytes));
            }
            Call::Fill { value, from, to } => self.fat.get_mut(from..to).ok_or(format!("the medium has {entries} entries"))?.fill(value),
            Call::Entries { at, values } => {
                self.fat.get_mut(at..at + values.len()).ok_or(format!("the medium has {entries} entries"))?.copy_from_slice(&values)
            }
            Call::Data { at, bytes: new } => {
                self.area.get_mut(at..at + new.len()).ok_or(format!("the medium has {bytes} bytes"))?.copy_from_slice(&new)
            }
            Call::Lend { entries: n, bytes: len } => {
                if n > entries || len > bytes {
                    return Err(format!("the medium has {entries} entries and {bytes} bytes"));
                }
                self.lent = (n, len);
            }
            _ => {}
        }
        Ok(())
    }

    fn set_state(&mut self, direct: Direct) -> Result<(), String> {
        match direct {
            Direct::Pair(i, c, v) => self.w.pair[i] = bindings::Pair { c, v },
            Direct::Record(i, r) => self.w.rec[i] = r,
            Direct::Slot(i, s) => self.w.st[i] = s,
            Direct::Field(name, _) => return Err(format!("a replay doesn't set {name}")),
        }
        Ok(())
    }

    pub fn call(&mut self, call: Call) -> Result<Answer, String> {
        Ok(match call {
            Call::Write { lba, busy, ref shown, ref written } => Answer::Number(self.write(lba, shown, written, busy)),
            Call::Start { first, files } => Answer::Number(self.start(first, files)),
            Call::Gone(row) => Answer::Number(vwrite_report_gone(&mut self.files, row)),
            Call::Poll { .. } | Call::Release | Call::ReleaseAll { .. } | Call::BusReset => Answer::Ended(self.ends(&call)),
            Call::Rw(_) | Call::SetReadOnly(_) | Call::ModeReset => {
                self.set_mode(&call);
                Answer::Nothing
            }
            Call::Handed => Answer::Handed(self.handed()),
            Call::State => Answer::Nothing,
            Call::Set(direct) => {
                self.set_state(direct)?;
                Answer::Nothing
            }
            _ => {
                self.set_medium(call)?;
                Answer::Nothing
            }
        })
    }
}
