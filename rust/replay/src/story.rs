//! The whole story of a file over a recording. That it was turned, zeroed, named and gone is what the proved library says; which refused sectors concern it is read
//! off the calls and their answers.
use crate::words;
use bindings::File;

/// Where in the recording: the line, and the clock of the last tick in milliseconds, if there was one.
#[derive(Clone, Copy, PartialEq, Debug)]
pub struct At {
    pub line: usize,
    pub clock: Option<u64>,
}

impl std::fmt::Display for At {
    fn fmt(&self, f: &mut std::fmt::Formatter) -> std::fmt::Result {
        match self.clock {
            Some(ms) => write!(f, "line {} at {}.{:03} s", self.line, ms / 1000, ms % 1000),
            None => write!(f, "line {}", self.line),
        }
    }
}

/// How a refused sector concerns a file.
#[derive(Clone, Copy, PartialEq, Debug)]
pub enum How {
    /// It would have zeroed all of its entries in the sector, or changed them otherwise.
    Zeroes,
    Entries,
    /// It would have turned its slot, or changed it otherwise.
    Turns,
    Slot,
    /// Data in its clusters.
    Data,
    /// A directory elsewhere that names it.
    Names,
}

#[derive(Clone, Copy, PartialEq, Debug)]
pub enum What {
    Turned,
    Zeroed,
    Moved,
    Named,
    Handed,
    Gone,
    /// Handed no longer, though it wasn't reported gone: another table was started with.
    Restarted,
    /// A release left it unmarked.
    Forgotten,
    Refused(u8, How),
}

/// What came of a file in the end.
#[derive(Clone, Copy, PartialEq, Debug)]
pub enum Fate {
    Deleted,
    Handed,
    /// Handed until another table was started with.
    Restarted,
    /// Turned, zeroed or moved, or so in a refused sector, and then forgotten.
    Lost,
    /// Turned, zeroed or moved, and the recording ends before a release.
    Begun,
    Refused,
    Untouched,
}

pub struct Story {
    name: String,
    empty: bool,
    events: Vec<(At, What)>,
    is_handed: bool,
}

impl Story {
    pub fn new(f: &File) -> Story {
        Story { name: words::file_name(f.id), empty: f.vsize == 0, events: vec![], is_handed: false }
    }

    pub fn add(&mut self, at: At, what: What) {
        self.events.push((at, what));
    }

    pub fn handed(&mut self, is: bool, at: At) {
        match (self.is_handed, is) {
            (false, true) => self.add(at, What::Handed),
            (true, false) if !self.events.contains(&(at, What::Gone)) => self.add(at, What::Restarted),
            _ => {}
        }
        self.is_handed = is;
    }

    pub fn was_handed(&self) -> bool {
        self.events.iter().any(|e| e.1 == What::Handed)
    }

    /// The events of each session: up to a release that left the file unmarked, and what follows the last of them.
    fn sessions(&self) -> Vec<&[(At, What)]> {
        self.events.split_inclusive(|e| e.1 == What::Forgotten).collect()
    }

    /// The session that a file's fate was decided in: the one in which it was handed, else the last in which it was given up in part.
    fn decisive(&self) -> &[(At, What)] {
        let of = |is: fn(What) -> bool| self.sessions().into_iter().rev().find(|s| s.iter().any(|e| is(e.1)));
        let refused = |w: What| matches!(w, What::Refused(_, How::Turns | How::Zeroes | How::Names));
        of(|w| w == What::Handed).or(of(is_part)).or(of(refused)).unwrap_or(&self.events)
    }

    pub fn fate(&self) -> Fate {
        let session = self.decisive();
        let is = |what: What| session.iter().any(|e| e.1 == what);
        let refused = |how: How| session.iter().any(|e| matches!(e.1, What::Refused(_, h) if h == how));
        match () {
            _ if is(What::Gone) => Fate::Deleted,
            _ if self.is_handed => Fate::Handed,
            _ if is(What::Restarted) => Fate::Restarted,
            _ if session.iter().any(|e| is_part(e.1)) => match is(What::Forgotten) {
                true => Fate::Lost,
                false => Fate::Begun,
            },
            _ if refused(How::Turns) || refused(How::Zeroes) => Fate::Lost,
            _ if self.events.is_empty() => Fate::Untouched,
            _ => Fate::Refused,
        }
    }

    /// One plain sentence.
    pub fn sentence(&self, row: usize) -> String {
        let session = self.decisive();
        let since = || first(session, What::Handed).map_or("the start".to_string(), |a| a.to_string());
        let told = match self.fate() {
            Fate::Deleted => format!("handed in {} and deleted: reported gone in line {}", since(), line(session, What::Gone)),
            Fate::Handed => format!("handed since {}: {}", since(), gave_up(session)),
            Fate::Restarted => format!("handed from {} until the start in line {}: {}", since(), line(session, What::Restarted), gave_up(session)),
            Fate::Lost => {
                let end = first(session, What::Forgotten).map_or(String::new(), |a| format!("; forgotten at the release in line {}", a.line));
                format!("given up, but not handed: {}{end}", self.missing(session))
            }
            Fate::Begun => format!("not handed so far: {}; the recording ends before a release", self.missing(session)),
            Fate::Refused => self.refused_sentence(),
            Fate::Untouched => "untouched: no written sector concerned it".to_string(),
        };
        format!("{} (row {row}): {told}", self.name)
    }

    /// Why a file that was given up in part is not handed.
    fn missing(&self, session: &[(At, What)]) -> String {
        let at = |what: What| first(session, what).map(|a| a.line);
        match (at(What::Turned), at(What::Zeroed), at(What::Moved)) {
            (Some(t), None, None) if self.empty => format!("turned in line {t}, but it is empty and has no FAT entry to free"),
            (Some(t), None, None) => {
                let kinds = [How::Zeroes, How::Entries, How::Names, How::Data];
                let earlier = || refusal(&self.events, &kinds).map_or(String::new(), |w| format!("; in an earlier session {w}"));
                let why = refusal(session, &kinds).unwrap_or_else(|| format!("no FAT sector freed its entries{}", earlier()));
                format!("turned in line {t}, but {why}")
            }
            (Some(t), None, Some(m)) => match first(session, What::Forgotten) {
                Some(_) => format!("turned in line {t} and named elsewhere in line {m}, but no longer at the release: taken back"),
                None => format!("turned in line {t} and named elsewhere in line {m}, which a release hands over if it is still named then"),
            },
            (None, Some(z), _) => {
                let why = refusal(session, &[How::Turns, How::Slot]);
                format!("its entries freed in line {z}, but {}", why.unwrap_or("its slot was not turned".to_string()))
            }
            (None, None, _) => refusal(session, &[How::Turns, How::Zeroes, How::Names]).unwrap_or_default(),
            (Some(t), Some(z), _) => format!("turned in line {t}, its entries freed in line {z}"),
        }
    }

    fn refused_sentence(&self) -> String {
        let is_refused = |e: &&(At, What)| matches!(e.1, What::Refused(..));
        let refused: Vec<&(At, What)> = self.events.iter().filter(is_refused).collect();
        let many = match refused.len() {
            0 => return "not given up: named elsewhere, and not turned".to_string(),
            1 => "the one sector that concerned it was refused",
            _ => "the sectors that concerned it were refused",
        };
        let (at, what) = refused[0];
        format!("not given up: {many}{}; line {}: {}", if refused.len() > 1 { ", the first" } else { "" }, at.line, event(*what))
    }

    /// What happened, line by line; a run of like refusals is one line.
    pub fn lines(&self) -> Vec<String> {
        let mut told: Vec<String> = vec![];
        let mut rest = &self.events[..];
        while let Some(&(at, what)) = rest.first() {
            let run = rest.iter().take_while(|(_, w)| *w == what).count();
            let to = rest[run - 1].0.line;
            let place = if run > 1 { format!("lines {} to {to}, {run} times", at.line) } else { at.to_string() };
            told.push(format!("{place}: {}", event(what)));
            rest = &rest[run..];
        }
        told
    }
}

fn is_part(what: What) -> bool {
    matches!(what, What::Turned | What::Zeroed | What::Moved)
}

fn first(session: &[(At, What)], what: What) -> Option<At> {
    session.iter().find(|e| e.1 == what).map(|e| e.0)
}

fn line(session: &[(At, What)], what: What) -> usize {
    first(session, what).map_or(0, |a| a.line)
}

/// What a handed file rests on.
fn gave_up(session: &[(At, What)]) -> String {
    let freed = match first(session, What::Zeroed) {
        Some(z) => format!("its entries freed in line {}", z.line),
        None => format!("still named elsewhere at the release in line {}", line(session, What::Named)),
    };
    format!("turned in line {}, {freed}", line(session, What::Turned))
}

/// The first refusal of the session that is of one of these kinds, the kinds in their order.
fn refusal(session: &[(At, What)], kinds: &[How]) -> Option<String> {
    let of = |how: &How| session.iter().find(|e| matches!(e.1, What::Refused(_, h) if h == *how));
    let (at, what) = kinds.iter().find_map(of)?;
    Some(format!("{} (line {})", event(*what), at.line))
}

fn event(what: What) -> String {
    match what {
        What::Turned => "turned: its directory slot says deleted".to_string(),
        What::Zeroed => "its entries freed: all that are in a FAT sector became 0".to_string(),
        What::Moved => "named elsewhere: a staged sector names it by its start and length".to_string(),
        What::Named => "still named elsewhere at the release".to_string(),
        What::Handed => "handed to deletion".to_string(),
        What::Gone => "reported gone".to_string(),
        What::Restarted => "no longer handed: another table was started with".to_string(),
        What::Forgotten => "the release left it unmarked; what was before it no longer counts".to_string(),
        What::Refused(number, how) => format!("{} was refused: {number}, {}", refused(how), words::refusal(number)),
    }
}

fn refused(how: How) -> &'static str {
    match how {
        How::Zeroes => "the FAT sector that frees its entries",
        How::Entries => "a FAT sector that changes its entries",
        How::Turns => "the directory sector that turns its slot",
        How::Slot => "a directory sector that changes its slot",
        How::Data => "other data in its clusters",
        How::Names => "a sector that names it elsewhere",
    }
}
