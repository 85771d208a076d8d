//! Slips in one word, number or mark: a comparison, a literal, an operator, a truth value, a variant.

use crate::mutant::Slip;
use crate::source::Source;
use crate::tokens::Sort;

/// What a mark may be taken for, and what kind of slip that is.
fn other_marks(mark: &str) -> (Slip, &'static [&'static str]) {
    match mark {
        "<" => (Slip::Comparison, &["<=", ">="]),
        "<=" => (Slip::Comparison, &["<", ">"]),
        ">" => (Slip::Comparison, &[">=", "<="]),
        ">=" => (Slip::Comparison, &[">", "<"]),
        "==" => (Slip::Comparison, &["!=", "<=", ">="]),
        "!=" => (Slip::Comparison, &["==", "<", ">"]),
        "+" => (Slip::Arithmetic, &["-"]),
        "-" => (Slip::Arithmetic, &["+"]),
        "+=" => (Slip::Arithmetic, &["-="]),
        "-=" => (Slip::Arithmetic, &["+="]),
        "*" => (Slip::Arithmetic, &["+"]),
        "/" => (Slip::Arithmetic, &["*"]),
        "%" => (Slip::Arithmetic, &["/"]),
        "<<" => (Slip::Arithmetic, &[">>"]),
        ">>" => (Slip::Arithmetic, &["<<"]),
        "^" => (Slip::Arithmetic, &["|"]),
        "&&" => (Slip::Negation, &["||"]),
        "||" => (Slip::Negation, &["&&"]),
        "!" => (Slip::Negation, &[""]),
        _ => (Slip::Comparison, &[]),
    }
}

/// What the sources name, all together.
pub struct Names {
    /// The constants that are a number.
    numbers: Vec<String>,
    /// The enums, each with its variants.
    enums: Vec<(String, Vec<String>)>,
}

impl Names {
    pub fn of(sources: &[Source]) -> Names {
        Names {
            numbers: sources.iter().flat_map(|source| source.numbers.clone()).collect(),
            enums: sources.iter().flat_map(|source| source.enums.clone()).collect(),
        }
    }
}

/// What may stand in a token's place.
pub fn slips(source: &Source, at: usize, names: &Names) -> Vec<(Slip, String)> {
    let word = source.word(at);
    match source.tokens[at].sort {
        Sort::Number => numbers(source, at)
            .into_iter()
            .map(|new| (Slip::Literal, new))
            .collect(),
        Sort::Mark => marks(source, at),
        Sort::Word if word == "true" => vec![(Slip::Literal, "false".to_string())],
        Sort::Word if word == "false" => vec![(Slip::Literal, "true".to_string())],
        Sort::Word if names.numbers.iter().any(|name| name == word) => constant(source, at),
        Sort::Word => variant(source, at, &names.enums)
            .into_iter()
            .map(|new| (Slip::Variant, new))
            .collect(),
        Sort::Text => Vec::new(),
    }
}

fn marks(source: &Source, at: usize) -> Vec<(Slip, String)> {
    let mark = source.word(at);
    let before = source.word(at - 1);
    let left = source.is(at - 1, Sort::Number) || matches!(before, ")" | "]") || is_name(source, at - 1);
    if mark != "!" && !left {
        return Vec::new(); // `*b`, `-1`, `&x`: not between two values
    }
    let (slip, others) = other_marks(mark);
    let others = others.iter().filter(|other| !alike(source, at, other));
    others.map(|other| (slip, other.to_string())).collect()
}

fn is_name(source: &Source, at: usize) -> bool {
    source.is(at, Sort::Word) && !matches!(source.word(at), "return" | "if" | "in" | "mut" | "match" | "while")
}

/// Comparisons that no value tells apart: nothing is below 0, and nothing modulo 2 is above 1.
fn alike(source: &Source, at: usize, other: &str) -> bool {
    let right = source.word(at + 1);
    let last = !matches!(source.word(at + 2), "+" | "-" | "*" | "/" | "%");
    let modulo = source.word(at - 2) == "%" && source.word(at - 1) == "2" && right == "1";
    match source.word(at) {
        "==" => (right == "0" && last && other == "<=") || (modulo && other == ">="),
        "!=" => right == "0" && last && other == ">",
        _ => false,
    }
}

/// One more and one less. `.0` is a field.
fn numbers(source: &Source, at: usize) -> Vec<String> {
    if is_length(source, at) || source.word(at - 1) == "." {
        return Vec::new();
    }
    let word = source.word(at);
    let (base, digits) = word.strip_prefix("0x").map_or((10, word), |digits| (16, digits));
    let end = digits
        .find(|c: char| !c.is_digit(base) && c != '_')
        .unwrap_or(digits.len());
    let (digits, suffix) = digits.split_at(end);
    let Ok(value) = u64::from_str_radix(&digits.replace('_', ""), base) else {
        return Vec::new();
    };
    let near = [Some(value + 1), value.checked_sub(1)];
    let written = |value: u64| {
        if base == 16 {
            format!("{value:#x}{suffix}")
        } else {
            format!("{value}{suffix}")
        }
    };
    near.into_iter().flatten().map(written).collect()
}

/// A constant is one more or one less where it is used.
fn constant(source: &Source, at: usize) -> Vec<(Slip, String)> {
    let word = source.word(at);
    if is_length(source, at) || source.word(at - 1) == "::" {
        return Vec::new();
    }
    let near = [format!("({word} + 1)"), format!("({word} - 1)")];
    near.into_iter().map(|new| (Slip::Literal, new)).collect()
}

/// `[.. ; LENGTH]`: it is the type's and no number of the code.
fn is_length(source: &Source, at: usize) -> bool {
    source.word(at - 1) == ";" && source.word(at + 1) == "]"
}

/// The variant after this one of the same enum. The variants of a match stand in its arms, which are exchanged.
fn variant(source: &Source, at: usize, enums: &[(String, Vec<String>)]) -> Option<String> {
    if at < 2 || source.word(at - 1) != "::" || source.word(at + 1) == "=>" {
        return None;
    }
    let (of, word) = (source.word(at - 2), source.word(at));
    let all = enums
        .iter()
        .find(|(name, all)| name == of && all.iter().any(|one| one == word));
    let (_, all) = all?;
    let place = all.iter().position(|one| one == word)?;
    let next = &all[(place + 1) % all.len()];
    (next != word).then(|| next.clone())
}
