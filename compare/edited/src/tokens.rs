//! The text in tokens, as far as edits of it go.
use std::ops::Range;

#[derive(Clone, Copy, PartialEq, Eq, Debug)]
pub enum Kind {
    Number,
    Bytes,
    Char,
    /// A name in capitals.
    Constant,
    /// `return ..`, `break ..` or `continue ..`, up to the end of the statement or the arm.
    Leave,
    /// An operator that has two sides, or `!`.
    Operator,
    Word,
    Other,
}

#[derive(Debug)]
pub struct Token {
    pub at: Range<usize>,
    pub kind: Kind,
}

const LONG: [&str; 20] = ["..=", "<<=", ">>=", "==", "!=", "<=", ">=", "&&", "||", "<<", ">>", "|=", "&=", "^=", "+=", "-=", "..", "->", "=>", "::"];

/// The tokens of a part of the text, comments left out. Besides each `return`, `break` and `continue` all that it leaves with is a token too.
pub fn tokens(text: &str, part: Range<usize>) -> Vec<Token> {
    let mut out: Vec<Token> = vec![];
    let mut at = part.start;
    let mut closure = false;
    while at < part.end {
        let rest = &text[at..part.end];
        let c = rest.chars().next().unwrap();
        if c.is_whitespace() {
            at += c.len_utf8();
            continue;
        }
        if rest.starts_with("//") {
            at += rest.find('\n').unwrap_or(rest.len());
            continue;
        }
        if rest.starts_with("#[") {
            at += rest.find(']').unwrap() + 1;
            continue;
        }
        let len = length(rest);
        let word = &rest[..len];
        let before = out.last().map_or("", |t| &text[t.at.clone()]).to_string();
        let kind = kind(word, &before, &mut closure);
        let end = if kind == Kind::Leave { at + leave(rest) } else { at + len };
        out.push(Token { at: at..end, kind });
        if kind == Kind::Leave {
            out.push(Token { at: at..at + len, kind: Kind::Other });
        }
        at += len;
    }
    out
}

fn length(rest: &str) -> usize {
    let c = rest.chars().next().unwrap();
    if rest.starts_with("b\"") {
        return 3 + rest[2..].find('"').unwrap();
    }
    if rest.starts_with("b'") {
        return 3 + rest[2..].find('\'').unwrap();
    }
    if c.is_ascii_alphanumeric() || c == '_' {
        return rest.find(|c: char| !c.is_ascii_alphanumeric() && c != '_').unwrap_or(rest.len());
    }
    if c == '\'' {
        return 1 + rest[1..].find(|c: char| !c.is_ascii_alphanumeric()).unwrap();
    }
    LONG.iter().find(|o| rest.starts_with(**o)).map_or(c.len_utf8(), |o| o.len())
}

/// `closure`: a closure's parameters are being read.
fn kind(word: &str, before: &str, closure: &mut bool) -> Kind {
    let c = word.chars().next().unwrap();
    let value = before.ends_with(|c: char| c.is_ascii_alphanumeric() || "_)]?'\"".contains(c)) && !["return", "in", "as", "mut"].contains(&before);
    if word.starts_with("b\"") {
        return Kind::Bytes;
    }
    if word.starts_with("b'") {
        return Kind::Char;
    }
    if c.is_ascii_digit() {
        return if before == "." { Kind::Other } else { Kind::Number };
    }
    if ["return", "break", "continue"].contains(&word) {
        return Kind::Leave;
    }
    if c.is_ascii_alphabetic() || c == '_' {
        let capitals = word.len() > 1 && c.is_ascii_uppercase() && word.chars().all(|c| !c.is_ascii_lowercase());
        return if capitals { Kind::Constant } else { Kind::Word };
    }
    if word == "|" && (*closure || !value) {
        *closure = !*closure;
        return Kind::Other;
    }
    match word {
        "!" => Kind::Operator,
        ";" | "," | "(" | ")" | "[" | "]" | "{" | "}" | "." | "=" | "=>" | "::" | "->" | "?" | ":" => Kind::Other,
        _ if value => Kind::Operator,
        _ => Kind::Other,
    }
}

/// How far a `return`, `break` or `continue` reaches.
fn leave(rest: &str) -> usize {
    let mut depth = 0;
    for (i, c) in rest.char_indices() {
        match c {
            '(' | '[' | '{' => depth += 1,
            ')' | ']' | '}' if depth == 0 => return i,
            ')' | ']' | '}' => depth -= 1,
            ';' | ',' if depth == 0 => return i,
            _ => {}
        }
    }
    rest.len()
}
