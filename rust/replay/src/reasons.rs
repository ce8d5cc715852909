//! What the calls held of each file: demand 3's own conditions, kept up from call to call by the proved library, each change a point of the file's story.
use crate::session::Session;
use crate::story::{At, How, Story, What};
use bindings::calls::*;
use bindings::{File, State, DATA_START, SPC};
use line_form::Call;

/// The sector of a directory that stands at a place.
fn directory_sector(lba: u32) -> Option<u32> {
    let at = lba.checked_sub(DATA_START)?;
    vwrite_dir_kind(at / SPC + 2).found.then_some(at % SPC)
}

/// Of one file: what the library says of it, and its story.
struct Row {
    reason: Reason,
    story: Story,
}

impl Row {
    /// The reason as the library gives it after a call.
    fn becomes(&mut self, reason: Reason, at: At) {
        let was = std::mem::replace(&mut self.reason, reason);
        let parts = [
            (was.turned, reason.turned, What::Turned),
            (was.zeroed, reason.zeroed, What::Zeroed),
            (was.moved, reason.moved, What::Moved),
            (was.named, reason.named, What::Named),
            (was.gone, reason.gone, What::Gone),
        ];
        for (_, _, what) in parts.into_iter().filter(|(before, after, _)| *after && !before) {
            self.story.add(at, what);
        }
    }

    /// A release that left the file unmarked: what was before it no longer counts.
    fn forgets(&mut self, at: At) {
        let r = std::mem::take(&mut self.reason);
        if r.turned || r.zeroed || r.moved {
            self.story.add(at, What::Forgotten);
        }
    }
}

/// Of every row of the table, and of the tables before it.
pub struct Reasons {
    rows: Vec<Row>,
    past: Vec<Vec<Story>>,
}

impl Reasons {
    pub fn new() -> Reasons {
        Reasons { rows: vec![], past: vec![] }
    }

    /// A start that took its table; the stories of the one before end here.
    pub fn started(&mut self, files: &[File], at: At) {
        let rows = files.iter().map(|f| Row { reason: Reason::default(), story: Story::new(f) }).collect();
        let mut ended: Vec<Story> = std::mem::replace(&mut self.rows, rows).into_iter().map(|r| r.story).collect();
        ended.iter_mut().for_each(|s| s.handed(false, at));
        if !ended.is_empty() {
            self.past.push(ended);
        }
    }

    /// The stories of each table, in the order of the starts.
    pub fn tables(&self) -> Vec<Vec<&Story>> {
        let now = self.rows.iter().map(|r| &r.story).collect();
        self.past.iter().map(|t| t.iter().collect()).chain([now]).collect()
    }

    /// The rows that a staged sector names before a call, of those whose slot stands in the written directory sector: no others can be turned.
    pub fn names_at(&self, session: &Session, call: &Call) -> Vec<bool> {
        let Call::Write { lba, .. } = call else { return vec![] };
        match directory_sector(*lba) {
            Some(s) => session.files.iter().map(|f| f.slot as u32 / 16 == s && session.names(&session.w, f)).collect(),
            None => vec![],
        }
    }

    /// A write that answered `number`; `named` are the rows named before it, and `staged` says whether it staged its sector.
    pub fn written(&mut self, files: &[File], call: &Call, number: u8, named: &[bool], staged: bool, at: At) {
        let Call::Write { lba, shown, written, .. } = call else { return };
        for (j, (row, f)) in self.rows.iter_mut().zip(files).enumerate() {
            let named = named.get(j).copied().unwrap_or(false);
            let reason = vwrite_after_write(row.reason, f, number, *lba, &shown[..], &written[..], named, staged);
            row.becomes(reason, at);
        }
    }

    /// A refused write that concerns these rows.
    pub fn refused(&mut self, rows: &[(usize, How)], number: u8, at: At) {
        rows.iter().for_each(|&(j, how)| self.rows[j].story.add(at, What::Refused(number, how)));
    }

    /// A call that may end the session; `met` is the state that it met. Only a release that ran to its end asks which files were named then.
    pub fn ended(&mut self, session: &Session, met: &State, ended: u8, at: At) {
        for (row, f) in self.rows.iter_mut().zip(&session.files) {
            let named = ended == 1 && session.names(met, f);
            let reason = vwrite_after_end(row.reason, ended, f.id, named);
            match ended == 1 && f.id & 0xF000 == 0 {
                true => row.forgets(at),
                false => row.becomes(reason, at),
            }
        }
    }

    pub fn reported(&mut self, number: u8, row: usize, at: At) {
        for (j, r) in self.rows.iter_mut().enumerate() {
            let reason = vwrite_after_gone(r.reason, number, row, j);
            r.becomes(reason, at);
        }
    }

    /// After every call: which files are handed now, as the finder says.
    pub fn handed(&mut self, session: &Session, at: At) {
        for (j, r) in self.rows.iter_mut().enumerate() {
            r.story.handed(session.is_handed(j), at);
        }
    }

    /// What is told must agree with the marks: a file is handed exactly where it was turned, zeroed or named, and not reported gone.
    pub fn agree(&self, files: &[File]) -> Result<(), String> {
        let told = |r: Reason| r.turned && (r.zeroed || r.named) && !r.gone;
        match self.rows.iter().zip(files).position(|(row, f)| told(row.reason) != (f.id & 0x7000 == 0x3000)) {
            Some(j) => Err(format!("the reasons kept up for row {j} don't agree with its marks")),
            None => Ok(()),
        }
    }
}
