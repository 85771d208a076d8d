//! A script while it is written: each line is answered at once by the second program's own bench, so that the next
//! line can be made of the answer, and what it shows is counted.

use crate::bench::commands::Console;
use std::collections::BTreeMap;
use std::io::Write;
use std::process::ExitCode;

#[derive(Default)]
pub struct Script {
    pub console: Console,
    text: Vec<u8>,
    counts: BTreeMap<String, usize>,
    wrong: usize,
}

impl Script {
    /// A line as it stands. One with no word has no answer.
    pub fn line(&mut self, line: &[u8]) -> Option<String> {
        self.text.extend(line);
        self.text.push(b'\n');
        self.console.answer(line)
    }

    pub fn text(&self) -> &[u8] {
        &self.text
    }

    pub fn comment(&mut self, text: &str) {
        self.line(format!("# {text}").as_bytes());
    }

    /// A command, and its answer.
    pub fn say(&mut self, text: &str) -> String {
        self.line(text.as_bytes()).expect("a line with a word has an answer")
    }

    /// A command whose answer is known.
    pub fn expect(&mut self, text: &str, meant: &str) {
        let answer = self.say(text);
        let short: String = text.chars().take(200).collect();
        self.holds(&format!("{short}: {answer}, not {meant}"), answer == meant);
    }

    /// Says what is not as it has to be.
    pub fn holds(&mut self, what: &str, holds: bool) {
        if !holds {
            eprintln!("not so: {what}");
            self.wrong += 1;
        }
    }

    /// Something is shown once more.
    pub fn count(&mut self, what: impl Into<String>) {
        *self.counts.entry(what.into()).or_default() += 1;
    }

    pub fn counted(&self, what: &str) -> usize {
        self.counts.get(what).copied().unwrap_or(0)
    }

    /// Of some places by their names the one that was hit alone least often, beginning anywhere.
    pub fn rarest(&self, names: &[String], any: usize) -> usize {
        let often = |&at: &usize| self.counted(&format!("alone: {}", names[at]));
        let from_any = (0..names.len()).map(|more| (any + more) % names.len());
        from_any.min_by_key(often).expect("a place at least")
    }

    /// Something has to be shown at least so often.
    pub fn often(&mut self, what: &str, least: usize) {
        let count = self.counted(what);
        self.holds(
            &format!("{what}: {count} times, which is below {least}"),
            count >= least,
        );
    }

    /// Writes the script. The status is 1 where anything was not as it has to be.
    pub fn finish(self) -> ExitCode {
        if let Err(error) = std::io::stdout().write_all(&self.text) {
            eprintln!("standard output: {error}");
            return ExitCode::from(1);
        }
        ExitCode::from(u8::from(self.wrong > 0))
    }
}

/// A word of an answer.
pub fn word(answer: &str, at: usize) -> &str {
    answer.split(' ').nth(at).unwrap_or("-")
}
