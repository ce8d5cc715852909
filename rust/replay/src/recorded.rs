//! What a recording says of its own calls: a remark `#= .. num=N` after a call is the number that it answered, else 0; `#= ROW ..` or `#= none` after `handed` are the rows.

/// The last call, as it was answered here, and what was recorded of it.
struct Last {
    line: usize,
    number: Option<u8>,
    recorded: Option<u8>,
    handed: Option<Vec<usize>>,
    rows: Option<Vec<usize>>,
}

#[derive(Default)]
pub struct Recorded {
    last: Option<Last>,
    remarks: usize,
    pub wrong: Vec<String>,
}

impl Recorded {
    /// A remark of the recording, which belongs to the call before it.
    pub fn remark(&mut self, text: &str) {
        let Some(words) = text.strip_prefix("#= ") else { return };
        self.remarks += 1;
        let Some(last) = &mut self.last else { return };
        if last.handed.is_some() {
            last.rows = match words.trim() {
                "none" => Some(vec![]),
                rows => rows.split_whitespace().map(|w| w.parse().ok()).collect(),
            };
            if last.rows.is_none() {
                self.wrong.push(format!("line {}: {words:?} are no rows", last.line));
            }
        } else if let Some(n) = words.split(' ').find_map(|w| w.strip_prefix("num=")) {
            last.recorded = n.parse().ok();
            if last.recorded.is_none() {
                self.wrong.push(format!("line {}: {n:?} is no number", last.line));
            }
        }
    }

    /// A call, with the number or the rows that it answered here.
    pub fn call(&mut self, line: usize, number: Option<u8>, handed: Option<Vec<usize>>) {
        self.settle();
        self.last = Some(Last { line, number, recorded: None, handed, rows: None });
    }

    fn settle(&mut self) {
        let Some(Last { line, number, recorded, handed, rows }) = self.last.take() else { return };
        if let Some(n) = number.filter(|n| *n != recorded.unwrap_or(0)) {
            self.wrong.push(format!("line {line} answers {n}, recorded is {}", recorded.unwrap_or(0)));
        }
        if let (Some(ours), Some(recorded)) = (handed, rows) {
            if ours != recorded {
                self.wrong.push(format!("line {line}: handed are the rows {ours:?}, recorded are {recorded:?}"));
            }
        }
    }

    pub fn end(&mut self) {
        self.settle();
        if self.remarks == 0 {
            self.wrong.insert(0, "the recording holds no answers".to_string());
        }
    }
}
