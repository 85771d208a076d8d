//! A source text as words, numbers and marks. Blanks and comments are none of them.

#[derive(Clone, Copy, PartialEq)]
pub enum Sort {
    Word,
    Number,
    Mark,
    Text,
}

/// A token, by its place in the text.
#[derive(Clone, Copy)]
pub struct Token {
    pub sort: Sort,
    pub start: usize,
    pub end: usize,
}

/// The marks of several characters, longer ones first.
const MARKS: [&str; 19] = [
    "<<=", ">>=", "..=", "::", "->", "=>", "==", "!=", "<=", ">=", "&&", "||", "<<", ">>", "+=", "-=", "*=", "/=", "..",
];

pub fn tokens(text: &str) -> Vec<Token> {
    let mut found = Vec::new();
    let mut at = 0;
    while let Some(first) = text[at..].chars().next() {
        let rest = &text[at..];
        let (sort, length) = if first.is_whitespace() {
            (None, first.len_utf8())
        } else if rest.starts_with("//") {
            (None, rest.find('\n').unwrap_or(rest.len()))
        } else if first == '"' || rest.starts_with("b\"") {
            (Some(Sort::Text), quoted(rest, '"'))
        } else if is_character(rest) {
            (Some(Sort::Text), quoted(rest, '\''))
        } else if first.is_ascii_digit() {
            (Some(Sort::Number), run(rest))
        } else if first.is_alphabetic() || first == '_' {
            (Some(Sort::Word), run(rest))
        } else {
            let long = MARKS.iter().find(|mark| rest.starts_with(**mark));
            (Some(Sort::Mark), long.map_or(first.len_utf8(), |mark| mark.len()))
        };
        let end = at + length;
        found.extend(sort.map(|sort| Token { sort, start: at, end }));
        at = end;
    }
    found
}

/// Letters, digits and underlines: a word, or a number with the name of its type.
fn run(rest: &str) -> usize {
    rest.find(|c: char| !c.is_alphanumeric() && c != '_')
        .unwrap_or(rest.len())
}

/// A character in quotes; a lifetime has no second quote.
fn is_character(rest: &str) -> bool {
    let inner = rest.strip_prefix("b'").or(rest.strip_prefix('\''));
    inner.is_some_and(|inner| inner.starts_with('\\') || inner.chars().nth(1) == Some('\''))
}

/// The length of a text in quotes, with what stands before its first quote.
fn quoted(rest: &str, quote: char) -> usize {
    let mut inside = false;
    let mut escaped = false;
    for (at, c) in rest.char_indices() {
        if escaped {
            escaped = false;
        } else if inside && c == '\\' {
            escaped = true;
        } else if c == quote {
            if inside {
                return at + c.len_utf8();
            }
            inside = true;
        }
    }
    rest.len()
}
