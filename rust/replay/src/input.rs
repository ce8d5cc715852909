//! A recording read line by line: is it whole, and what is told where it isn't.
use line_form::Call;
use std::io::BufRead;

/// An error or a warning: a line of up to 200 characters, of which the second part is kept whole.
pub fn tell(what: &str, then: &str) {
    let room = 200 - "replay:  ..; ".len() - then.len();
    let mut text: String = what.chars().take(room).collect();
    if text.len() < what.len() {
        text.push_str(" ..");
    }
    eprintln!("replay: {text}; {then}");
}

#[derive(Default)]
pub struct Ending {
    line: usize,
    calls: usize,
    over: bool,
    starts: usize,
    /// The last line is no remark and ended with no newline.
    open: bool,
    started: bool,
}

impl Ending {
    /// The next line, with its number.
    pub fn next(&mut self, input: &mut impl BufRead) -> std::io::Result<Option<(usize, Vec<u8>)>> {
        let mut bytes = vec![];
        if input.read_until(b'\n', &mut bytes)? == 0 {
            return Ok(None);
        }
        self.open = bytes.pop_if(|b| *b == b'\n').is_none() && !bytes.starts_with(b"#");
        self.line += 1;
        Ok(Some((self.line, bytes)))
    }

    pub fn called(&mut self, call: &Call) {
        self.calls += 1;
        self.starts += matches!(call, Call::Start { .. }) as usize;
    }

    /// A line `end N`.
    pub fn over(&mut self, n: usize) -> Result<(), String> {
        self.over = true;
        match n == self.calls {
            true => Ok(()),
            false => Err(format!("the recording's end counts {n} calls, and {} stand before it", self.calls)),
        }
    }

    pub fn is_over(&self) -> bool {
        self.over
    }

    /// Whether a start of the recording was taken.
    pub fn taken(&mut self, started: bool) {
        self.started = started;
    }

    /// What speaks for a recording that is cut short or is none; nothing where its end is told.
    pub fn warnings(&self) -> Vec<String> {
        let told = [
            (self.line == 0, "the file is empty"),
            (self.line > 0 && self.starts == 0, "there is no start"),
            (self.starts > 0 && !self.started, "no start was taken"),
            (self.line > 0 && self.open, "the last line has no newline"),
        ];
        told.iter().filter(|t| t.0 && !self.over).map(|t| t.1.to_string()).collect()
    }
}
