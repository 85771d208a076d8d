//! A mutant: one place of one source text replaced.

use crate::source::Source;

/// What kind of slip it is.
#[derive(Clone, Copy)]
pub enum Slip {
    Comparison,
    Literal,
    Arithmetic,
    Negation,
    Variant,
    Arms,
    DroppedCheck,
    DroppedCall,
    Exchanged,
}

impl Slip {
    pub fn name(self) -> &'static str {
        match self {
            Slip::Comparison => "comparison",
            Slip::Literal => "literal",
            Slip::Arithmetic => "arithmetic",
            Slip::Negation => "condition negated",
            Slip::Variant => "another variant",
            Slip::Arms => "two arms exchanged",
            Slip::DroppedCheck => "check dropped",
            Slip::DroppedCall => "call dropped",
            Slip::Exchanged => "two checks exchanged",
        }
    }
}

#[derive(Clone)]
pub struct Mutant {
    pub slip: Slip,
    /// The place of its source in the list of sources, and of its function in the source.
    pub source: usize,
    pub function: usize,
    /// What is replaced, by its place in the text, and what stands there instead.
    pub start: usize,
    pub end: usize,
    pub new: String,
}

impl Mutant {
    /// By what a reader finds it again, wherever it moves: the crate, the function with its `impl` block, and its lines
    /// before and after.
    pub fn title(&self, source: &Source) -> String {
        let mut first = line_start(&source.text, self.start);
        while source.text[first..].trim_start().starts_with("return") {
            first = line_start(&source.text, first - 1); // with what it is the answer to
        }
        let end = source.text[self.end..].find('\n');
        let last = end.map_or(source.text.len(), |at| self.end + at);
        let before = plain(&source.text[first..last]);
        let (left, right) = (&source.text[first..self.start], &source.text[self.end..last]);
        let after = plain(&format!("{left}{}{right}", self.new));
        let name = source.functions[self.function].path();
        format!("`{}::{name}`: `{before}` -> `{after}`", source.of)
    }
}

/// Where the line of this place starts.
fn line_start(text: &str, at: usize) -> usize {
    text[..at].rfind('\n').map_or(0, |end| end + 1)
}

/// Code on one line, without its comments.
fn plain(code: &str) -> String {
    let bare = code.lines().map(|line| line.split("//").next().unwrap_or(""));
    let words: Vec<&str> = bare.flat_map(str::split_whitespace).collect();
    words.join(" ")
}
