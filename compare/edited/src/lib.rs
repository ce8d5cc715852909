//! Wrong edits of the Rust's text, one thing at a time: those of `edits.txt`, then every comparison, operator, constant, early return and statement of
//! the functions that were ported, made from the text as it stands. None of them is stored.
mod ported;
mod tokens;

use std::ops::Range;
use tokens::{Kind, Token};

/// One change of one file.
pub struct Edit {
    pub file: &'static str,
    at: Range<usize>,
    new: String,
    /// What it is, by function and place: it stays the same while the text does.
    pub name: String,
}

impl Edit {
    pub fn on(&self, text: &str) -> String {
        format!("{}{}{}", &text[..self.at.start], self.new, &text[self.at.end..])
    }
}

pub const FILES: [&str; 2] = ["vwrite.rs", "vdisk.rs"];

/// All edits of the two files, in the order of `edits.txt` and then of the text.
pub fn list(texts: &[String; 2], by_hand: &str) -> Vec<Edit> {
    let mut all = told(texts, by_hand);
    for (file, text) in FILES.into_iter().zip(texts) {
        for part in ported::parts(file, text) {
            let tokens = tokens::tokens(text, part.at.clone());
            let mut made = vec![];
            for i in 0..tokens.len() {
                made.extend(at_token(text, &tokens, i));
                made.extend(statement(text, &tokens, i));
            }
            for (k, (at, new)) in made.into_iter().enumerate() {
                let old = text[at.clone()].split_whitespace().collect::<Vec<_>>().join(" ");
                let short: String = old.chars().take(40).collect();
                let told = if new.is_empty() { "nothing" } else { &new };
                all.push(Edit { file, name: format!("{} {k}: {short} to {told}", part.name), at, new });
            }
        }
    }
    all
}

/// The edits of edits.txt: a line `# NAME`, a line `== FILE`, lines `-- ` of old text, which stands once in its file, and lines `++ ` of new.
fn told(texts: &[String; 2], list: &str) -> Vec<Edit> {
    let mut out = vec![];
    let mut name = "";
    let mut lines = list.lines().peekable();
    while let Some(line) = lines.next() {
        if let Some(n) = line.strip_prefix("# ") {
            name = n;
        }
        let Some(file) = line.strip_prefix("== ") else { continue };
        let mut part = |mark: &str| {
            let mut taken = vec![];
            while let Some(l) = lines.peek().and_then(|l| l.strip_prefix(mark)) {
                taken.push(l);
                lines.next();
            }
            taken.join("\n")
        };
        let (old, new) = (part("-- "), part("++ "));
        let which = FILES.iter().position(|f| *f == file).unwrap_or_else(|| panic!("{name}: no file {file}"));
        assert_eq!(texts[which].matches(&old).count(), 1, "{name}: its old text stands not once in {file}");
        let at = texts[which].find(&old).unwrap();
        out.push(Edit { file: FILES[which], at: at..at + old.len(), new, name: name.to_string() });
    }
    out
}

/// Words and operators, and what is put in their place.
const INSTEAD: [(&str, &[&str]); 36] = [
    ("==", &["!="]),
    ("!=", &["=="]),
    ("<", &["<="]),
    ("<=", &["<"]),
    (">", &[">="]),
    (">=", &[">"]),
    ("&&", &["||"]),
    ("||", &["&&"]),
    ("!", &[""]),
    ("+", &["-"]),
    ("-", &["+"]),
    ("*", &["+"]),
    ("/", &["*"]),
    ("%", &["/"]),
    ("<<", &[">>"]),
    (">>", &["<<"]),
    ("&", &["|"]),
    ("|", &["&"]),
    ("^", &["|"]),
    ("|=", &["&=", "="]),
    ("&=", &["|="]),
    ("^=", &["|="]),
    ("+=", &["-="]),
    ("-=", &["+="]),
    ("..", &["..="]),
    ("..=", &[".."]),
    ("true", &["false"]),
    ("false", &["true"]),
    ("min", &["max"]),
    ("max", &["min"]),
    ("any", &["all"]),
    ("all", &["any"]),
    ("is_none", &["is_some"]),
    ("saturating_sub", &["wrapping_sub"]),
    ("wrapping_add", &["wrapping_sub"]),
    ("wrapping_sub", &["wrapping_add"]),
];

/// The changes of one token.
fn at_token(text: &str, tokens: &[Token], i: usize) -> Vec<(Range<usize>, String)> {
    let t = &tokens[i];
    let word = &text[t.at.clone()];
    let one = |new: String| vec![(t.at.clone(), new)];
    match t.kind {
        Kind::Number => numbers(word).into_iter().map(|n| (t.at.clone(), n)).collect(),
        Kind::Bytes => byte_strings(word).into_iter().map(|n| (t.at.clone(), n)).collect(),
        Kind::Char => one("b'!'".into()),
        Kind::Constant => one(format!("({word} + 1)")),
        Kind::Leave => one("{}".into()),
        Kind::Operator | Kind::Word => match INSTEAD.iter().find(|(w, _)| *w == word) {
            Some((_, new)) => new.iter().map(|n| (t.at.clone(), n.to_string())).collect(),
            None => vec![],
        },
        Kind::Other => vec![],
    }
}

/// A number and one more, and one less.
fn numbers(word: &str) -> Vec<String> {
    let (digits, suffix) = word.split_at(word.find('u').unwrap_or(word.len()));
    let plain = digits.replace('_', "");
    let value = match plain.strip_prefix("0x") {
        Some(hex) => u64::from_str_radix(hex, 16),
        None => plain.parse(),
    };
    let Ok(n) = value else { return vec![] };
    let mut out = vec![format!("{}{suffix}", n + 1)];
    if n > 0 {
        out.push(format!("{}{suffix}", n - 1));
    }
    out
}

/// A byte string with another first character, with another last one, and, in a list of strings of any length, without the last.
fn byte_strings(word: &str) -> Vec<String> {
    let inner = &word[2..word.len() - 1];
    let (first, last) = (&inner[..1], &inner[inner.len() - 1..]);
    let other = |c: &str| if c == "!" { "?" } else { "!" };
    vec![
        format!("b\"{}{}\"", other(first), &inner[1..]),
        format!("b\"{}{}\"", &inner[..inner.len() - 1], other(last)),
        format!("b\"{}\"", &inner[..inner.len() - 1]),
    ]
}

/// The statement that begins at a token, left out: an assignment or a call.
fn statement(text: &str, tokens: &[Token], i: usize) -> Option<(Range<usize>, String)> {
    let begins = i == 0 || [";", "{", "}"].contains(&&text[tokens[i - 1].at.clone()]);
    let word = &text[tokens[i].at.clone()];
    let plain = tokens[i].kind != Kind::Leave && (word == "*" || word.starts_with(|c: char| c.is_ascii_lowercase()));
    if !begins || !plain || ["let", "if", "while", "for", "match", "loop", "return", "break", "continue", "const", "use"].contains(&word) {
        return None;
    }
    let mut depth = 0;
    for t in &tokens[i..] {
        match &text[t.at.clone()] {
            "(" | "[" | "{" => depth += 1,
            ")" | "]" | "}" if depth == 0 => return None,
            ")" | "]" | "}" => depth -= 1,
            ";" if depth == 0 => return Some((tokens[i].at.start..t.at.end, String::new())),
            _ => {}
        }
    }
    None
}
