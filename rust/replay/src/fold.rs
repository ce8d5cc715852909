//! The lines that are printed of the calls: runs of like writes are told in one line, unless all are asked for.
use crate::story::At;
use crate::words::{self, Place};
use std::collections::BTreeSet;
use std::io::Write;

/// Writes that are told together: the same part of the drive, the same number, and no file marked.
#[derive(Clone, Copy, PartialEq)]
pub struct Kind {
    part: &'static str,
    number: u8,
}

impl Kind {
    pub fn of(lba: u32, number: u8) -> Kind {
        let part = match words::place(lba) {
            Place::Boot => "boot sector",
            Place::Fat(_) => "FAT",
            Place::Root(_) => "root",
            Place::Directory(..) => "directory",
            Place::Data(..) => "data",
            Place::Past => "places past the end",
        };
        Kind { part, number }
    }
}

struct Run {
    kind: Kind,
    from: At,
    to: usize,
    texts: Vec<String>,
    clusters: BTreeSet<u32>,
}

pub struct Lines<W: Write> {
    out: W,
    all: bool,
    run: Option<Run>,
}

/// Fewer like lines than these are told one by one.
const FEW: usize = 4;

impl<W: Write> Lines<W> {
    pub fn new(out: W, all: bool) -> Lines<W> {
        Lines { out, all, run: None }
    }

    /// A line by itself.
    pub fn tell(&mut self, text: &str) -> std::io::Result<()> {
        self.flush_run()?;
        writeln!(self.out, "{text}")
    }

    /// A write that may be one of a run.
    pub fn tell_write(&mut self, at: At, lba: u32, number: u8, text: String) -> std::io::Result<()> {
        let kind = Kind::of(lba, number);
        if self.run.as_ref().is_none_or(|r| r.kind != kind) || self.all {
            self.flush_run()?;
            self.run = Some(Run { kind, from: at, to: at.line, texts: vec![], clusters: BTreeSet::new() });
        }
        if let Some(run) = &mut self.run {
            run.to = at.line;
            run.texts.push(format!("{at}: {text}"));
            if let Place::Data(c, _) = words::place(lba) {
                run.clusters.insert(c);
            }
        }
        Ok(())
    }

    fn flush_run(&mut self) -> std::io::Result<()> {
        let Some(run) = self.run.take() else { return Ok(()) };
        if run.texts.len() < FEW {
            return run.texts.iter().try_for_each(|t| writeln!(self.out, "{t}"));
        }
        let what = match run.clusters.len() {
            0 => format!("{} sectors of the {}", run.texts.len(), run.kind.part),
            1 => format!("{} sectors of data, in one cluster", run.texts.len()),
            n => format!("{} sectors of data, in {n} clusters", run.texts.len()),
        };
        let end = match run.kind.number {
            0 => "all taken".to_string(),
            n => format!("all refused, {n}: {}", words::refusal(n)),
        };
        let clock = run.from.to_string().split_once(" at ").map_or(String::new(), |(_, c)| format!(" from {c} on"));
        writeln!(self.out, "lines {} to {}{clock}: {what}, {end}", run.from.line, run.to)
    }

    pub fn end(&mut self) -> std::io::Result<()> {
        self.flush_run()?;
        self.out.flush()
    }
}
