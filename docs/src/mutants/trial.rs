//! The trial of mutants: each plays the scripts, and what became of it is kept.

use crate::mutant::Mutant;
use crate::play::{Ending, Script};
use crate::source::Source;
use crate::woven::Numbered;
use std::cmp::Reverse;
use std::collections::HashMap;
use std::fs::File;
use std::io::{self, Write};
use std::path::Path;
use std::sync::Mutex;
use std::thread;

/// What became of a mutant.
#[derive(Clone, Copy)]
pub enum Fate {
    NotBuilt,
    Survives,
    /// By the script of this number.
    Killed(usize, Ending),
}

pub struct Trial<'a> {
    pub sources: &'a [Source],
    pub scripts: &'a [Script],
    /// How many seconds of the processor's time a mutant may take for each script.
    pub limits: Vec<u64>,
    /// Has each mutant as soon as it was tried.
    pub log: Mutex<File>,
}

impl Trial<'_> {
    /// All mutants of one program, so many at a time.
    pub fn all(&self, program: &Path, mutants: &[Numbered], jobs: usize) -> io::Result<Vec<(Mutant, Fate)>> {
        let next = Mutex::new(mutants.iter());
        let fates = Mutex::new(Vec::new());
        let kills: Mutex<HashMap<&str, Vec<usize>>> = Mutex::new(HashMap::new()); // of each crate, by the script
        let work = || -> io::Result<()> {
            loop {
                let Some((number, mutant)) = next.lock().unwrap().next() else {
                    return Ok(());
                };
                let of = self.sources[mutant.source].of.as_str();
                let most = kills
                    .lock()
                    .unwrap()
                    .get(of)
                    .cloned()
                    .unwrap_or(vec![0; self.scripts.len()]);
                let mut order: Vec<usize> = (0..self.scripts.len()).collect();
                order[1..].sort_by_key(|script| Reverse(most[*script])); // the shortest, then what killed most
                let fate = self.played(program, *number, &order)?;
                if let Fate::Killed(script, _) = fate {
                    kills.lock().unwrap().entry(of).or_insert(vec![0; self.scripts.len()])[script] += 1;
                }
                self.told(mutant, fate)?;
                fates.lock().unwrap().push(((*mutant).clone(), fate));
            }
        };
        thread::scope(|scope| {
            let workers: Vec<_> = (0..jobs).map(|_| scope.spawn(work)).collect();
            workers.into_iter().try_for_each(|worker| worker.join().unwrap())
        })?;
        Ok(fates.into_inner().unwrap())
    }

    fn played(&self, program: &Path, mutant: usize, order: &[usize]) -> io::Result<Fate> {
        for &number in order {
            let ending = self.scripts[number].play(program, mutant, self.limits[number])?;
            if ending != Ending::Same {
                return Ok(Fate::Killed(number, ending));
            }
        }
        Ok(Fate::Survives)
    }

    pub fn told(&self, mutant: &Mutant, fate: Fate) -> io::Result<()> {
        let fate = match fate {
            Fate::NotBuilt => "not built",
            Fate::Survives => "survives",
            Fate::Killed(number, _) => &self.scripts[number].name,
        };
        let title = mutant.title(&self.sources[mutant.source]);
        writeln!(self.log.lock().unwrap(), "{fate}\t{}\t{title}", mutant.slip.name())
    }
}
