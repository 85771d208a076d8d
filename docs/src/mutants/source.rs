//! What of a source file is code: the bodies of its functions. Contracts are none of it.

use crate::tokens::{tokens, Sort, Token};
use std::ops::Range;
use std::path::PathBuf;

/// The clauses between a function's head and its body.
const CLAUSES: [&str; 3] = ["requires", "ensures", "ghost"];

/// An `impl` block; the range is of tokens.
#[derive(Clone)]
pub struct Block {
    pub generics: Vec<String>,
    /// The type.
    pub of: Range<usize>,
    pub by_trait: bool,
    /// As the linker has it: `Tam2Reply`, `Bytes+FIELD_LIMIT`; for `From<Area>` of `u8` it is `U8FromArea`.
    pub name: String,
}

/// A function; the ranges are of tokens.
pub struct Function {
    pub name: String,
    /// What it stands in.
    pub block: Option<Block>,
    pub generics: Vec<String>,
    /// From there to the contract: parameters and answer.
    pub head: Range<usize>,
    /// Their names; `self` is one.
    pub parameters: Vec<String>,
    pub answers: bool,
    /// Between the brackets.
    pub body: Range<usize>,
}

impl Function {
    /// Its name, with that of its block.
    pub fn path(&self) -> String {
        match &self.block {
            Some(block) => format!("{}::{}", block.name, self.name),
            None => self.name.clone(),
        }
    }
}

/// The names of the types and the constants among generic parameters. Lifetimes are left out: no call names them.
pub fn names(generics: &[String]) -> Vec<String> {
    let named = generics.iter().filter(|parameter| !parameter.starts_with('\''));
    let names = named.filter_map(|parameter| parameter.trim_start_matches("const ").split(':').next());
    names.map(str::to_string).collect()
}

pub struct Source {
    /// The crate.
    pub of: String,
    /// The file, from the crate's folder on.
    pub file: PathBuf,
    pub text: String,
    pub tokens: Vec<Token>,
    pub functions: Vec<Function>,
    /// The constants that are a number.
    pub numbers: Vec<String>,
    /// Each enum with those of its variants that carry nothing.
    pub enums: Vec<(String, Vec<String>)>,
}

impl Source {
    pub fn new(of: &str, file: PathBuf, text: String) -> Source {
        let mut source = Source {
            of: of.to_string(),
            file,
            tokens: tokens(&text),
            text,
            functions: Vec::new(),
            numbers: Vec::new(),
            enums: Vec::new(),
        };
        source.items(0..source.tokens.len(), None);
        source
    }

    /// What stands in a file or in an `impl` block. Bodies that a trait has itself are left out: there are none.
    fn items(&mut self, range: Range<usize>, block: Option<&Block>) {
        let mut at = range.start;
        while at < range.end {
            at = match self.word(at) {
                "fn" => self.function(at, block),
                "impl" => self.block(at),
                "trait" => self.behind(self.next(at, &["{"])),
                "const" if !self.is_parameter(at) => self.constant(at),
                "enum" => self.variants(at),
                _ => at + 1,
            };
        }
    }

    /// The text of a token; nothing behind the last.
    pub fn word(&self, at: usize) -> &str {
        self.tokens
            .get(at)
            .map_or("", |token| &self.text[token.start..token.end])
    }

    pub fn is(&self, at: usize, sort: Sort) -> bool {
        self.tokens.get(at).is_some_and(|token| token.sort == sort)
    }

    /// The text from one token to the one before another.
    pub fn between(&self, range: &Range<usize>) -> &str {
        if range.is_empty() {
            return "";
        }
        &self.text[self.tokens[range.start].start..self.tokens[range.end - 1].end]
    }

    /// The place behind the bracket that closes the one here; the next place where none opens.
    pub fn behind(&self, at: usize) -> usize {
        let mut open = 0;
        for place in at..self.tokens.len() {
            match self.word(place) {
                "(" | "[" | "{" => open += 1,
                ")" | "]" | "}" => open -= 1,
                _ => {}
            }
            if open <= 0 {
                return place + 1;
            }
        }
        self.tokens.len()
    }

    /// The first place from here on with one of these marks, outside all brackets that open from here on.
    pub fn next(&self, at: usize, marks: &[&str]) -> usize {
        let mut place = at;
        while place < self.tokens.len() && !marks.contains(&self.word(place)) {
            place = self.behind(place);
        }
        place
    }

    /// The name of a function of this file in the program: its crate, its modules, its block, its own. Of a generic one
    /// the linker has more behind it, for each of its uses.
    pub fn symbol(&self, function: &Function) -> String {
        let stem = self.file.with_extension("");
        let modules = stem.iter().map(|part| part.to_string_lossy().into_owned());
        let mut path = vec![self.of.clone()];
        path.extend(modules.filter(|module| module != "lib" && module != "mod"));
        path.push(function.path());
        path.join("::")
    }

    fn block(&mut self, at: usize) -> usize {
        let (generics, start) = self.generics(at + 1);
        let open = self.next(start, &["{"]);
        let end = self.behind(open);
        let by = (start..open).find(|place| self.word(*place) == "for");
        let of = by.map_or(start, |by| by + 1)..open;
        let name = self.block_name(&of, by.map(|by| start..by), &generics);
        let block = Block {
            generics,
            of,
            by_trait: by.is_some(),
            name,
        };
        self.items(open + 1..end - 1, Some(&block));
        end
    }

    /// How the linker names a block: by the words of the type, then by those of the trait, whose module it leaves out.
    fn block_name(&self, of: &Range<usize>, by: Option<Range<usize>>, generics: &[String]) -> String {
        let left_out = names(generics);
        let words = |range: Range<usize>| -> Vec<&str> {
            let words = range.filter(|at| self.is(*at, Sort::Word) && self.word(at - 1) != "'"); // no lifetime
            let words = words.map(|at| self.word(at));
            words.filter(|word| left_out.iter().all(|name| name != word)).collect()
        };
        let Some(mut by) = by else {
            return words(of.clone()).join("+");
        };
        while self.word(by.start + 1) == "::" {
            by.start += 2;
        }
        let words = [words(of.clone()), words(by)].concat();
        words.iter().map(|word| word[..1].to_uppercase() + &word[1..]).collect()
    }

    /// The parameters in the angle brackets that open here, and the place behind these; none and here, where none open.
    fn generics(&self, at: usize) -> (Vec<String>, usize) {
        let mut found = Vec::new();
        if self.word(at) != "<" {
            return (found, at);
        }
        let (mut open, mut start, mut place) = (1, at + 1, at + 1);
        while open > 0 && place < self.tokens.len() {
            open += match self.word(place) {
                "<" => 1,
                ">" => -1,
                ">>" => -2,
                _ => 0,
            };
            if open == 0 || (open == 1 && self.word(place) == ",") {
                let text = &self.text[self.tokens[start].start..self.tokens[place].end - 1];
                found.extend((start < place).then(|| text.trim().to_string()));
                start = place + 1;
            }
            place = self.behind(place);
        }
        (found, place)
    }

    /// Is this `const` a generic parameter's, as in `struct Challenged<const N: usize>`?
    fn is_parameter(&self, at: usize) -> bool {
        at > 0 && matches!(self.word(at - 1), "<" | ",")
    }

    fn function(&mut self, at: usize, block: Option<&Block>) -> usize {
        let (generics, open) = self.generics(at + 2);
        let close = self.behind(open);
        let mut place = self.next(close, &["{", ";"]);
        let head = open..self.clause(place).unwrap_or(place);
        while self.clause(place).is_some() {
            place = self.next(self.behind(place), &["{", ";"]);
        }
        let end = self.behind(place);
        if self.word(place) == "{" {
            self.functions.push(Function {
                name: self.word(at + 1).to_string(),
                block: block.cloned(),
                generics,
                head,
                parameters: self.parameters(open + 1..close - 1),
                answers: self.word(close) == "->",
                body: place + 1..end - 1,
            });
        }
        end
    }

    /// Where the clause starts whose bracket opens here, if it is one's: its word, or word and name.
    fn clause(&self, open: usize) -> Option<usize> {
        [open - 1, open - 2].into_iter().find(|at| CLAUSES.contains(&self.word(*at)))
    }

    /// Each name stands before its type; `self` has none.
    fn parameters(&self, range: Range<usize>) -> Vec<String> {
        let mut names = Vec::new();
        let mut place = range.start;
        while place < range.end {
            if self.word(place) == "self" || self.word(place + 1) == ":" {
                names.push(self.word(place).to_string());
            }
            place = self.behind(place);
        }
        names
    }

    fn constant(&mut self, at: usize) -> usize {
        let equals = self.next(at, &["="]);
        let end = self.next(equals, &[";"]);
        if end == equals + 2 && self.is(equals + 1, Sort::Number) {
            self.numbers.push(self.word(at + 1).to_string());
        }
        end
    }

    fn variants(&mut self, at: usize) -> usize {
        let name = self.word(at + 1).to_string();
        let open = self.next(at, &["{"]);
        let end = self.behind(open);
        let mut bare = Vec::new();
        let mut place = open + 1;
        while place + 1 < end {
            let close = self.next(place, &[",", "}"]);
            if close == place + 1 {
                bare.push(self.word(place).to_string());
            }
            place = close + 1;
        }
        self.enums.push((name, bare));
        end
    }
}
