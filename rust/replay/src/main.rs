//! Replays a recording through the proved library: what each call was judged to be, in words, and the whole story of each file.
mod fold;
mod input;
mod reasons;
mod recorded;
mod session;
mod story;
mod words;

use fold::Lines;
use input::Ending;
use line_form::Call;
use reasons::Reasons;
use recorded::Recorded;
use session::{Answer, Session};
use std::io::{BufRead, BufWriter, ErrorKind, IsTerminal, Write};
use story::{At, Fate};

const USAGE: &str = "replay [--all|--summary|--numbers|--check] [FILE]
  FILE       a recording (docs/RECORDING.md); standard input where none is given
  --all      every line by itself, where runs of like lines are told in one
  --summary  the end alone: the story of each file
  --numbers  for other programs: LINE NUMBER for each call that answers a number, and last the rows handed
  --check    compare with the answers that the recording holds; nothing else is told
  --help     this";

#[derive(Clone, Copy, PartialEq)]
enum Form {
    Words,
    All,
    Summary,
    Numbers,
    Check,
}

struct Replay<W: Write> {
    session: Session,
    reasons: Reasons,
    recorded: Recorded,
    form: Form,
    lines: Lines<W>,
    clock: Option<u64>,
    /// Nothing was set in the state but by calls: then the reasons and the marks agree.
    by_calls: bool,
}

enum Failed {
    /// The recording is wrong there.
    Wrong(String),
    Input(std::io::Error),
    Output(std::io::Error),
}

impl From<std::io::Error> for Failed {
    fn from(e: std::io::Error) -> Failed {
        Failed::Output(e)
    }
}

impl<W: Write> Replay<W> {
    /// What a call that was made holds of each file.
    fn note(&mut self, call: &Call, answer: &Answer, before: &words::Before, named: &[bool], at: At) {
        match (answer, call) {
            (Answer::Number(0), Call::Start { files, .. }) => self.reasons.started(files, at),
            (Answer::Number(n), Call::Write { lba, shown, written, .. }) => {
                let staged = before.w.ver != self.session.w.ver;
                self.reasons.written(&self.session.files, call, *n, named, staged, at);
                if *n != 0 {
                    self.reasons.refused(&words::concerned(before, *lba, shown, written), *n, at);
                }
            }
            (Answer::Number(n), Call::Gone(row)) => self.reasons.reported(*n, *row, at),
            (Answer::Ended(e), _) => self.reasons.ended(&self.session, &before.w, e.ended, at),
            (_, Call::Set(_)) => self.by_calls = false,
            _ => {}
        }
        self.reasons.handed(&self.session, at);
    }

    /// The call of a line: it is made, told, and what it holds of each file noted.
    fn call(&mut self, line: usize, call: Call) -> Result<(), Failed> {
        if let Call::Poll { clock, .. } = call {
            self.clock = Some(clock);
        }
        let at = At { line, clock: self.clock };
        let before = words::Before { w: self.session.w, files: self.session.files.clone() };
        // the write changes the medium in place, so what was named is asked first
        let named = self.reasons.names_at(&self.session, &call);
        let answer = self.session.call(call.clone()).map_err(Failed::Wrong)?;
        self.note(&call, &answer, &before, &named, at);
        if self.by_calls {
            self.reasons.agree(&self.session.files).map_err(Failed::Wrong)?;
        }
        let number = match answer {
            Answer::Number(n) => Some(n),
            Answer::Ended(e) => Some(e.no),
            _ => None,
        };
        let handed = matches!(call, Call::Handed).then(|| self.session.handed());
        self.recorded.call(line, number, handed);
        self.tell(&call, &answer, &before, number, at).map_err(Failed::Output)
    }

    fn tell(&mut self, call: &Call, answer: &Answer, before: &words::Before, number: Option<u8>, at: At) -> std::io::Result<()> {
        match (self.form, number) {
            (Form::Numbers, Some(n)) => self.lines.tell(&format!("{} {n}", at.line)),
            (Form::Words | Form::All, _) => match (words::told(call, answer, before, &self.session), call, number) {
                (Some((text, false)), Call::Write { lba, .. }, Some(n)) => self.lines.tell_write(at, *lba, n, text),
                (Some((text, _)), _, _) => self.lines.tell(&format!("{at}: {text}")),
                (None, _, _) => Ok(()),
            },
            _ => Ok(()),
        }
    }

    fn remark(&mut self, text: &str) -> std::io::Result<()> {
        self.recorded.remark(text);
        match text.strip_prefix("# do: ") {
            Some(did) if matches!(self.form, Form::Words | Form::All) => self.lines.tell(&format!("-- the person: {did}")),
            _ => Ok(()),
        }
    }

    fn stories(&mut self) -> std::io::Result<()> {
        let tables = self.reasons.tables();
        for (t, stories) in tables.iter().enumerate() {
            if tables.len() > 1 {
                self.lines.tell(&format!("the files of start {}:", t + 1))?;
            }
            for (j, story) in stories.iter().enumerate() {
                self.lines.tell(&story.sentence(j))?;
                story.lines().iter().try_for_each(|l| self.lines.tell(&format!("    {l}")))?;
            }
            let count = |f: Fate| stories.iter().filter(|s| s.fate() == f).count();
            self.lines.tell(&format!(
                "{}: {} ever handed, {} of them deleted; {} given up, and that was lost; {} not handed so far; {} in refused sectors only; {} untouched",
                words::files_told(stories.len()),
                stories.iter().filter(|s| s.was_handed()).count(),
                count(Fate::Deleted),
                count(Fate::Lost),
                count(Fate::Begun),
                count(Fate::Refused),
                count(Fate::Untouched)
            ))?;
        }
        Ok(())
    }

    /// What is told at the end.
    fn end(&mut self) -> std::io::Result<()> {
        self.recorded.end();
        match self.form {
            Form::Numbers => self.lines.tell(&self.session.handed().iter().fold("handed".to_string(), |t, j| format!("{t} {j}")))?,
            Form::Check => {}
            _ => self.stories()?,
        }
        self.lines.end()
    }
}

/// The exit status: 0 where all was read and is as it should be.
fn run(mut input: impl BufRead, form: Form) -> Result<i32, Failed> {
    let out = BufWriter::new(std::io::stdout().lock());
    let lines = Lines::new(out, form == Form::All);
    let (session, reasons, recorded) = (Session::new(), Reasons::new(), Recorded::default());
    let mut replay = Replay { session, reasons, recorded, form, lines, clock: None, by_calls: true };
    let mut ending = Ending::default();
    let mut status = 0;
    while let Some((line, bytes)) = ending.next(&mut input).map_err(Failed::Input)? {
        let done = line_form::text(&bytes).map_err(Failed::Wrong).and_then(|text| match line_form::parse(text).map_err(Failed::Wrong)? {
            _ if ending.is_over() && !text.starts_with('#') && !text.trim().is_empty() => Err(Failed::Wrong("the recording has ended".to_string())),
            None => Ok(replay.remark(text)?),
            Some(Call::End(n)) => ending.over(n).map_err(Failed::Wrong),
            Some(call) => {
                ending.called(&call);
                replay.call(line, call)
            }
        });
        if let Err(Failed::Wrong(what)) = &done {
            input::tell(&format!("line {line}: {what}"), "what stands before it is told, and nothing after it was read");
            status = 1;
            break;
        }
        done?;
    }
    replay.end()?;
    if form == Form::Check {
        replay.recorded.wrong.iter().for_each(|w| input::tell(w, "other than recorded"));
        status |= !replay.recorded.wrong.is_empty() as i32;
    }
    if status == 0 {
        ending.taken(replay.session.started);
        ending.warnings().iter().for_each(|w| input::tell(w, "the recording may be cut short"));
        status = !ending.warnings().is_empty() as i32;
    }
    Ok(status)
}

fn usage(status: i32) -> ! {
    // Whoever reads it may have read enough.
    let _ = match status {
        0 => writeln!(std::io::stdout(), "{USAGE}"),
        _ => writeln!(std::io::stderr(), "{USAGE}"),
    };
    std::process::exit(status);
}

fn main() {
    let mut form = Form::Words;
    let mut file = None;
    for arg in std::env::args().skip(1) {
        match arg.as_str() {
            "--all" => form = Form::All,
            "--summary" => form = Form::Summary,
            "--numbers" => form = Form::Numbers,
            "--check" => form = Form::Check,
            "--help" | "-h" => usage(0),
            a if a.starts_with('-') || file.is_some() => usage(2),
            _ => file = Some(arg),
        }
    }
    let done = match &file {
        Some(path) => match std::fs::File::open(path) {
            Ok(f) => run(std::io::BufReader::new(f), form),
            Err(e) => {
                input::tell(&format!("{path}: {e}"), "no recording was read");
                std::process::exit(2);
            }
        },
        None if std::io::stdin().is_terminal() => usage(2),
        None => run(std::io::stdin().lock(), form),
    };
    match done {
        Ok(status) => std::process::exit(status),
        // Whoever reads what is printed has read enough.
        Err(Failed::Output(e)) if e.kind() == ErrorKind::BrokenPipe => {}
        Err(Failed::Output(e)) => {
            input::tell(&e.to_string(), "the rest was not told");
            std::process::exit(2);
        }
        Err(Failed::Input(e)) => {
            input::tell(&format!("{}: {e}", file.as_deref().unwrap_or("standard input")), "it can't be read");
            std::process::exit(2);
        }
        Err(Failed::Wrong(what)) => {
            input::tell(&what, "nothing after it was read");
            std::process::exit(1);
        }
    }
}
