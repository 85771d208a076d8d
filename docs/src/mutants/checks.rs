//! Slips in whole checks: one dropped, two exchanged, a condition negated; a call dropped, two arms exchanged.

use crate::mutant::Slip;
use crate::source::Source;
use crate::tokens::Sort;
use std::ops::Range;

/// A slip as a range of tokens and what stands there instead.
pub type Replaced = (Slip, Range<usize>, String);

/// `if .. { .. return ..; }` with no `else`: its condition, its block, and the place behind it.
struct Check {
    condition: Range<usize>,
    block: Range<usize>,
    end: usize,
}

pub fn slips(source: &Source, body: Range<usize>) -> Vec<Replaced> {
    let mut found = Vec::new();
    for at in body {
        match source.word(at) {
            "if" => {
                found.extend(negated(source, at));
                found.extend(dropped(source, at));
                found.extend(exchanged(source, at));
            }
            "match" => found.extend(arms(source, at)),
            _ => found.extend(call(source, at)),
        }
    }
    found
}

/// A statement starts behind a block or another statement.
fn starts(source: &Source, at: usize) -> bool {
    matches!(source.word(at - 1), "{" | "}" | ";")
}

/// A statement that leaves the function where its condition holds.
fn check(source: &Source, at: usize) -> Option<Check> {
    if source.word(at) != "if" || !starts(source, at) {
        return None;
    }
    let open = source.next(at + 1, &["{"]);
    let end = source.behind(open);
    let (condition, block) = (at + 1..open, open + 1..end - 1);
    let mut statement = block.start;
    let mut last = "";
    while statement < block.end {
        last = source.word(statement);
        statement = source.next(statement, &[";", "}"]) + 1;
    }
    (last == "return" && source.word(end) != "else").then_some(Check { condition, block, end })
}

fn dropped(source: &Source, at: usize) -> Option<Replaced> {
    let end = check(source, at)?.end;
    Some((Slip::DroppedCheck, at..end, String::new()))
}

/// A condition that has no mark of its own to be changed.
fn negated(source: &Source, at: usize) -> Option<Replaced> {
    let open = source.next(at + 1, &["{"]);
    let condition = at + 1..open;
    let compares = |place| matches!(source.word(place), "<" | "<=" | ">" | ">=" | "==" | "!=" | "!" | "let");
    if condition.clone().any(compares) {
        return None;
    }
    let new = format!("!{}", source.between(&condition));
    Some((Slip::Negation, condition, new))
}

/// A check behind the next one; what is named between them stays before both. Two checks with one
/// answer are left, and so are two that never both hold.
fn exchanged(source: &Source, at: usize) -> Option<Replaced> {
    let first = check(source, at)?;
    let mut place = first.end;
    while source.word(place) == "let" {
        place = source.next(place, &[";"]) + 1;
    }
    let second = check(source, place)?;
    let alike = source.between(&first.block) == source.between(&second.block);
    if alike || apart(source, &first.condition, &second.condition) {
        return None;
    }
    let rest = source.between(&(first.end..second.end));
    let new = format!("{rest} {}", source.between(&(at..first.end)));
    Some((Slip::Exchanged, at..second.end, new))
}

/// `x == 1` and `x == 2`.
fn apart(source: &Source, one: &Range<usize>, other: &Range<usize>) -> bool {
    let left = |range: &Range<usize>| source.between(&(range.start..range.end - 1)).to_string();
    source.word(one.end - 2) == "==" && left(one) == left(other)
}

/// A call whose answer nobody takes.
fn call(source: &Source, at: usize) -> Option<Replaced> {
    if at == 0 || !starts(source, at) || !source.is(at, Sort::Word) {
        return None;
    }
    let mut place = at; // of a path or of a value and its parts, the word that was read last
    loop {
        let is_part = source.word(place + 1) == "[";
        let next = if is_part { source.behind(place + 1) } else { place + 1 };
        if !matches!(source.word(next), "::" | ".") || !source.is(next + 1, Sort::Word) {
            break;
        }
        place = next + 1;
    }
    let end = source.behind(place + 1);
    let is_call = source.word(place + 1) == "(" && source.word(end) == ";";
    is_call.then(|| (Slip::DroppedCall, at..end + 1, String::new()))
}

/// The patterns of each two neighbours, where their answers differ.
fn arms(source: &Source, at: usize) -> Vec<Replaced> {
    let open = source.next(at + 1, &["{"]);
    let close = source.behind(open) - 1;
    let mut all: Vec<(Range<usize>, Range<usize>)> = Vec::new();
    let mut place = open + 1;
    while place < close {
        let arrow = source.next(place, &["=>"]);
        let block = source.word(arrow + 1) == "{";
        let end = if block {
            source.behind(arrow + 1)
        } else {
            source.next(arrow + 1, &[",", "}"])
        };
        all.push((place..arrow, arrow + 1..end));
        place = if source.word(end) == "," { end + 1 } else { end };
    }
    let mut found = Vec::new();
    for two in all.windows(2) {
        let ((one, says), (other, differs)) = (&two[0], &two[1]);
        if source.between(says) == source.between(differs) {
            continue;
        }
        let middle = &source.text[source.tokens[one.end].start..source.tokens[other.start].start];
        let new = format!("{} {middle}{}", source.between(other), source.between(one));
        found.push((Slip::Arms, one.start..other.end, new));
    }
    found
}
