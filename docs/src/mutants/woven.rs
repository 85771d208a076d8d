//! All mutants of a file in one text, so that one program is all of them: each is a copy of its function with the slip,
//! and the function itself begins by asking which mutant is played.

use crate::mutant::Mutant;
use crate::source::{names, Block, Function, Source};

/// What is asked, as a crate of its own; `played.c` answers.
pub const ASKED: &str = "unsafe extern \"C\" {
    safe fn mutant_played() -> usize;
}

pub fn played() -> usize {
    mutant_played()
}
";

/// The name of that crate.
pub const ASKS: &str = "mutants";

/// A mutant with its number, which is above 0: 0 plays the program itself.
pub type Numbered<'a> = (usize, &'a Mutant);

pub struct Woven {
    pub text: String,
    /// The line at which each copy begins, in order, with the mutant's number.
    copies: Vec<(usize, usize)>,
}

impl Woven {
    /// The mutants are of this source, those of a function one after the other.
    pub fn new(source: &Source, mutants: &[Numbered]) -> Woven {
        let mut text = String::new();
        let mut done = 0;
        for (number, function) in source.functions.iter().enumerate() {
            let own: Vec<&Numbered> = mutants.iter().filter(|(_, mutant)| mutant.function == number).collect();
            let open = source.tokens[function.body.start - 1].end;
            text.push_str(&source.text[done..open]);
            text.push_str(&question(source, function, &own));
            done = open;
        }
        text.push_str(&source.text[done..]);
        let mut copies = Vec::new();
        for (number, mutant) in mutants {
            copies.push((text.lines().count() + 1, *number));
            text.push_str(&copy(source, mutant, *number));
        }
        Woven { text, copies }
    }

    /// The mutant whose copy has this line.
    pub fn at(&self, line: usize) -> Option<usize> {
        let before = self.copies.iter().take_while(|(first, _)| *first <= line);
        before.last().map(|(_, number)| *number)
    }
}

/// The block whose type has the copies of a function, in a block without a trait. Copies of a trait's function that has
/// neither `self` nor `Self` are free functions, since its type may be another crate's, such as `u8`. A method of such
/// a type would be refused; there is none.
fn block<'a>(source: &Source, function: &'a Function) -> Option<&'a Block> {
    let mut words = (function.head.start..function.body.end).map(|at| source.word(at));
    let own = words.any(|word| matches!(word, "self" | "Self"));
    function.block.as_ref().filter(|block| own || !block.by_trait)
}

/// The generic parameters of the copies of a function: outside its block they have the block's too.
fn generics(source: &Source, function: &Function) -> Vec<String> {
    let outside = function.block.iter().filter(|_| block(source, function).is_none());
    let outer = outside.flat_map(|block| block.generics.clone());
    outer.chain(function.generics.clone()).collect()
}

/// In angle brackets behind these marks; nothing where there are none.
fn angled(marks: &str, parts: &[String]) -> String {
    match parts.is_empty() {
        true => String::new(),
        false => format!("{marks}<{}>", parts.join(", ")),
    }
}

/// What a function that has mutants asks first.
fn question(source: &Source, function: &Function, mutants: &[&Numbered]) -> String {
    let (Some((first, _)), Some((last, _))) = (mutants.first(), mutants.last()) else {
        return String::new();
    };
    let of = block(source, function).map_or("", |_| "Self::");
    let kinds = angled("::", &names(&generics(source, function)));
    let given = function.parameters.join(", ");
    let mut asked = format!(" let played = {ASKS}::played(); if {first} <= played {{ if played <= {last} {{");
    for (number, _) in mutants {
        let call = format!("{of}{}__{number}{kinds}({given})", function.name);
        let left = if function.answers {
            format!("return {call};")
        } else {
            format!("{call}; return;")
        };
        asked.push_str(&format!(" if played == {number} {{ {left} }}"));
    }
    asked + " } }"
}

/// The function with the slip, under a name of its own and without its contract.
fn copy(source: &Source, mutant: &Mutant, number: usize) -> String {
    let function = &source.functions[mutant.function];
    let (open, close) = (function.body.start - 1, function.body.end);
    let before = &source.text[source.tokens[open].start..mutant.start];
    let after = &source.text[mutant.end..source.tokens[close].end];
    let (generics, head) = (angled("", &generics(source, function)), source.between(&function.head));
    let name = format!("{}__{number}", function.name);
    let copy = format!("fn {name}{generics}{head} {before}{}{after}", mutant.new);
    match block(source, function) {
        Some(block) => {
            let (generics, of) = (angled("", &block.generics), source.between(&block.of));
            format!("\nimpl{generics} {of} {{ {copy} }}\n")
        }
        None => format!("\n{copy}\n"),
    }
}
