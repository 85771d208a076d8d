//! What became of the mutants, counted and told.

use crate::mutant::Mutant;
use crate::play::{Ending, Script};
use crate::source::Source;
use crate::trial::Fate;
use std::collections::BTreeMap;

#[derive(Default)]
struct Count {
    tried: usize,
    survive: usize,
}

/// Writes the counts and the survivors; says whether the document names each of these.
pub fn told(sources: &[Source], scripts: &[Script], fates: &[(Mutant, Fate)], document: &str) -> bool {
    let mut rows: BTreeMap<(usize, &str), Count> = BTreeMap::new();
    let mut killers: BTreeMap<&str, usize> = BTreeMap::new();
    let mut survivors = Vec::new();
    let mut all = Count::default();
    for (mutant, fate) in fates {
        let source = &sources[mutant.source];
        match fate {
            Fate::NotBuilt => continue,
            Fate::Survives => survivors.push(mutant.title(source)),
            Fate::Killed(_, Ending::Crashed) => *killers.entry("a crash").or_default() += 1,
            Fate::Killed(_, Ending::Late) => *killers.entry("running too long").or_default() += 1,
            Fate::Killed(script, _) => *killers.entry(&scripts[*script].name).or_default() += 1,
        }
        let survives = usize::from(matches!(fate, Fate::Survives));
        let of_crate = rows.entry((0, &source.of)).or_default();
        of_crate.tried += 1;
        of_crate.survive += survives;
        let of_slip = rows.entry((1, mutant.slip.name())).or_default();
        of_slip.tried += 1;
        of_slip.survive += survives;
        all.tried += 1;
        all.survive += survives;
    }
    for ((_, name), count) in &rows {
        println!("{name:20} {:5} tried, {:4} survive", count.tried, count.survive);
    }
    for (killer, count) in &killers {
        println!("{count:5} are killed by {killer}");
    }
    println!("{:5} more do not compile", fates.len() - all.tried);
    survivors.sort();
    let unexplained = survivors.iter().filter(|title| !explained(title, document));
    let new = unexplained.map(|title| println!("not explained: {title}")).count();
    let killed = all.tried - all.survive;
    println!(
        "{} mutants tried, {killed} killed, {} survive, {new} of them not explained",
        all.tried, all.survive
    );
    new == 0
}

/// Does the document name it? A function keeps its name where it moves to another crate.
fn explained(title: &str, document: &str) -> bool {
    let at = title.find("::").unwrap_or(0);
    document.contains(&title[at..])
}
