//! All mutants of the sources, and a draw from them that can be repeated.

use crate::checks;
use crate::mutant::{Mutant, Slip};
use crate::operators::{self, Names};
use crate::source::Source;
use std::collections::HashSet;
use std::ops::Range;

/// Those of the functions that the program calls, by their symbols; a generic one has a symbol for each of its uses.
pub fn all(sources: &[Source], called: &HashSet<String>) -> Vec<Mutant> {
    let called: HashSet<&str> = called.iter().filter_map(|symbol| symbol.split("::<").next()).collect();
    let names = Names::of(sources);
    let mut found = Vec::new();
    for (number, source) in sources.iter().enumerate() {
        let functions = source.functions.iter().enumerate();
        for (place, function) in functions.filter(|(_, function)| called.contains(source.symbol(function).as_str())) {
            let mut keep = |slip: Slip, range: Range<usize>, new: String| {
                let (start, end) = (source.tokens[range.start].start, source.tokens[range.end - 1].end);
                found.push(Mutant {
                    slip,
                    source: number,
                    function: place,
                    start,
                    end,
                    new,
                });
            };
            for at in function.body.clone() {
                for (slip, new) in operators::slips(source, at, &names) {
                    keep(slip, at..at + 1, new);
                }
            }
            for (slip, range, new) in checks::slips(source, function.body.clone()) {
                keep(slip, range, new);
            }
        }
    }
    found
}

/// The first `count` of the mutants in an order drawn from the seed (splitmix64).
pub fn drawn(mut mutants: Vec<Mutant>, count: usize, seed: u64) -> Vec<Mutant> {
    let mut state = seed;
    let mut draw = || {
        state = state.wrapping_add(0x9e3779b97f4a7c15);
        let z = (state ^ (state >> 30)).wrapping_mul(0xbf58476d1ce4e5b9);
        let z = (z ^ (z >> 27)).wrapping_mul(0x94d049bb133111eb);
        z ^ (z >> 31)
    };
    for last in (1..mutants.len()).rev() {
        mutants.swap(last, (draw() % (last as u64 + 1)) as usize);
    }
    mutants.truncate(count);
    mutants
}

/// Those that survived an earlier run, by its list of fates.
pub fn survivors(sources: &[Source], mutants: Vec<Mutant>, fates: &str) -> Vec<Mutant> {
    let survived: HashSet<&str> = fates
        .lines()
        .filter_map(|line| line.strip_prefix("survives\t"))
        .collect();
    let line = |mutant: &Mutant| format!("{}\t{}", mutant.slip.name(), mutant.title(&sources[mutant.source]));
    mutants
        .into_iter()
        .filter(|mutant| survived.contains(line(mutant).as_str()))
        .collect()
}
