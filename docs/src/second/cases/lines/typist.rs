//! Whoever types at the bench: words in any of their looks, and lines between them that leave all as it was.

use crate::bench::commands::Console;
use crate::bench::words::{bytes, words};
use crate::cases::draws::Draws;
use crate::cases::script::Script;
use crate::standard::frames::{self, Kind};

/// A line that leaves all as it was, and its answer.
pub struct Aside {
    text: String,
    meant: String,
}

impl Aside {
    pub fn new(text: &str, meant: &str) -> Aside {
        Aside {
            text: text.to_string(),
            meant: meant.to_string(),
        }
    }
}

pub struct Typist<'a> {
    pub draws: Draws,
    pub script: &'a mut Script,
    /// They come between other lines, so that it shows that they leave all as it was.
    asides: Vec<Aside>,
}

impl<'a> Typist<'a> {
    pub fn new(script: &'a mut Script, draws: Draws) -> Typist<'a> {
        Typist {
            draws,
            script,
            asides: Vec::new(),
        }
    }

    /// From now on these come between the lines, in any order.
    pub fn asides(&mut self, asides: Vec<Aside>) {
        for aside in asides {
            let at = self.draws.below(self.asides.len() + 1);
            self.asides.insert(at, aside);
        }
    }

    /// The asides that are left.
    pub fn rest(&mut self) {
        while self.aside() {}
    }

    /// Types a line as it stands.
    pub fn line(&mut self, line: &[u8]) -> Option<String> {
        let answer = self.script.line(line);
        match &answer {
            None => self.script.count("no answer"),
            Some(answer) => {
                for what in said(answer).into_iter().chain(asked(&words(line), answer)) {
                    self.script.count(what);
                }
            }
        }
        answer
    }

    /// Types words that have one answer, in any of their looks; an aside before some of them.
    pub fn expect(&mut self, text: &str, meant: &str) {
        if self.draws.once_in(3) {
            self.aside();
        }
        self.dressed(text, meant);
    }

    /// What another script has said, word for word, in other looks.
    pub fn again(&mut self, text: &[u8]) {
        let mut console = Console::default();
        for line in text.split(|&byte| byte == b'\n') {
            if let Some(meant) = console.answer(line) {
                self.expect(&String::from_utf8_lossy(line), &meant);
            }
        }
    }

    fn aside(&mut self) -> bool {
        let Some(aside) = self.asides.pop() else { return false };
        self.dressed(&aside.text, &aside.meant);
        true
    }

    fn dressed(&mut self, text: &str, meant: &str) {
        if self.draws.once_in(16) {
            let empty = ["", " ", "\t", "\r", "# areas", " \t# sheet 00 \r", "#"];
            let line = self.draws.one_of(&empty);
            self.line(line.as_bytes());
        }
        let mut line = String::new();
        line += self.draws.one_of(&["", "", "", "", "", "", "", " ", "\t", " \r\t "]);
        for (i, word) in text.split(' ').enumerate() {
            let between = self.draws.one_of(&[" ", " ", " ", " ", " ", "\t", "  ", " \t", "\r"]);
            line += if i > 0 { between } else { "" };
            line += &self.cased(word);
        }
        line += self.draws.one_of(&[
            "", "", "", "", "", " ", "\t", "\r", " \t\r", "#", " # 00", "#\t- *\r", "\t##",
        ]);
        let answer = self.line(line.as_bytes()).expect("a line with a word has an answer");
        let short: String = text.chars().take(200).collect();
        self.script
            .holds(&format!("{short}: {answer}, not {meant}"), answer == meant);
    }

    /// Hexadecimal digits of either case. The names that are made of such digits alone are of an odd number.
    fn cased(&mut self, word: &str) -> String {
        let digits = word.len() % 2 == 0 && word.bytes().all(|byte| byte.is_ascii_hexdigit());
        let mut either = |digit: char| {
            if self.draws.once_in(2) {
                digit.to_ascii_uppercase()
            } else {
                digit
            }
        };
        match digits {
            true => word.chars().map(&mut either).collect(),
            false => word.to_string(),
        }
    }
}

/// What an answer shows.
fn said(answer: &str) -> Vec<String> {
    let words: Vec<&str> = answer.split(' ').collect();
    match words[..] {
        ["error:", ..] => vec!["error".to_string(), answer.to_string()],
        ["refused", number, ..] => vec![format!("refused {number}")],
        ["reply", _, "state", state, "purpose", _] => vec!["reply".to_string(), format!("reply state {state}")],
        ["accepted", .., word] => vec![format!("accepted {word}")],
        [first, ..] if first.parse::<u8>().is_ok() => vec![format!("explained {first}")],
        [first, ..] => vec![first.to_string()],
        [] => vec![],
    }
}

/// Which command came to a right answer, to a refusal or to an error; and whether a reply was made of draws that
/// nobody knows.
fn asked(line: &[&[u8]], answer: &str) -> Vec<String> {
    let words: Vec<String> = line
        .iter()
        .map(|word| String::from_utf8_lossy(word).to_string())
        .collect();
    let mut name = words[0].clone();
    if let ("build" | "aes" | "cbc", Some(second)) = (&words[0][..], words.get(1)) {
        name = format!("{name} {second}");
    }
    let outcome = match answer {
        _ if answer.starts_with("error:") => "error",
        _ if answer.starts_with("refused") => "refused",
        _ => "right",
    };
    let by_chance = name == "message" && words.get(2).is_none_or(|draws| draws == "*");
    let kind = line
        .get(1)
        .and_then(|word| bytes(word).ok()?.first().copied())
        .and_then(frames::kind_of);
    let drawn = !matches!(kind, Some(Kind::Iam2 | Kind::Iam3 | Kind::Mam2));
    let mut all = vec![format!("{name} {outcome}")];
    if by_chance && outcome != "error" {
        all.push(
            if outcome == "right" && drawn {
                "reply by chance"
            } else {
                "draws of the system"
            }
            .to_string(),
        );
    }
    all
}
