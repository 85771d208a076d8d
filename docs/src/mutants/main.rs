//! How strong the scripts are: single-place mutants of the code, built unproved, and which of them the scripts do not
//! tell from the program itself. docs/src/mutants/run calls it; docs/MUTANTS.md has how, and what was found.

mod checks;
mod crates;
mod kit;
mod list;
mod mutant;
mod operators;
mod play;
mod room;
mod settings;
mod source;
mod tally;
mod tokens;
mod trial;
mod woven;

use crate::crates::Crates;
use kit::{Kit, FAST};
use mutant::Mutant;
use play::{Ending, Script};
use room::Room;
use settings::Settings;
use source::Source;
use std::collections::HashSet;
use std::fs::{self, File};
use std::io;
use std::path::Path;
use std::process::ExitCode;
use std::sync::Mutex;
use std::time::Instant;
use trial::{Fate, Trial};
use woven::{Numbered, Woven};

fn main() -> ExitCode {
    match Settings::read(std::env::args().skip(1)).and_then(|settings| run(&settings)) {
        Ok(true) => ExitCode::SUCCESS,
        Ok(false) => ExitCode::from(1),
        Err(error) => {
            eprintln!("mutants: {error}");
            ExitCode::from(2)
        }
    }
}

/// Whether every survivor is explained.
fn run(settings: &Settings) -> io::Result<bool> {
    let kit = Kit::at(&settings.guide);
    let crates = Crates::read(Path::new("."))?;
    let given = (!settings.crates.is_empty()).then(|| settings.crates.clone());
    let names = given.unwrap_or_else(|| crates.worked());
    let mut sources = Vec::new();
    for name in &names {
        sources.extend(crates.sources(name)?);
    }
    let played = Path::new("docs/src/mutants/played.c");
    let room = Room::new(&kit, &crates, settings.folder.join("room"), played)?;
    if let Some(places) = room.module()? {
        return Err(io::Error::other(format!("the front end does not take the program itself: {places:?}")));
    }
    let all = list::all(&sources, &room.called()?);
    println!("{} slips could be made in {}", all.len(), names.join(", "));
    let mut drawn = match &settings.again {
        Some(fates) => list::survivors(&sources, all, fates),
        None => list::drawn(all, settings.count, settings.seed),
    };
    let trial = Trial {
        sources: &sources,
        scripts: &settings.scripts,
        limits: limits(&room, &settings.scripts)?,
        log: Mutex::new(File::create(settings.folder.join("fates.txt"))?),
    };
    let (began, before) = (Instant::now(), play::spent()?);
    drawn.sort_by_key(|mutant| (mutant.source, mutant.function)); // those of a function one after the other
    let fates = tried(&trial, &room, &drawn, settings.jobs)?;
    let document = fs::read_to_string("docs/MUTANTS.md").unwrap_or_default();
    let explained = tally::told(&sources, &settings.scripts, &fates, &document);
    let tried = fates.len().max(1) as f64;
    let (seconds, spent) = (began.elapsed().as_secs_f64(), play::spent()? - before);
    println!(
        "{:.1} s a mutant, {:.1} s of the processor's time",
        seconds / tried,
        spent / tried
    );
    Ok(explained)
}

/// The program itself must answer every script as expected; a mutant has four times as long, and a second.
fn limits(room: &Room, scripts: &[Script]) -> io::Result<Vec<u64>> {
    room.build(FAST)?;
    let mut limits = Vec::new();
    for script in scripts {
        let (name, before) = (&script.name, play::spent()?);
        if script.play(&room.program(), 0, 3600)? != Ending::Same {
            return Err(io::Error::other(format!("the program itself fails the script {name}")));
        }
        let took = play::spent()? - before;
        println!("the program itself answers {name} in {took:.2} s of the processor's time");
        limits.push((took * 4.0) as u64 + 2);
    }
    Ok(limits)
}

/// All mutants in one program.
fn tried(trial: &Trial, room: &Room, drawn: &[Mutant], jobs: usize) -> io::Result<Vec<(Mutant, Fate)>> {
    let mut taken: Vec<Numbered> = drawn
        .iter()
        .enumerate()
        .map(|(place, mutant)| (place + 1, mutant))
        .collect();
    let mut fates = Vec::new();
    while let Some(refused) = refused(room, trial.sources, &taken)? {
        for (_, mutant) in taken.iter().filter(|(number, _)| refused.contains(number)) {
            trial.told(mutant, Fate::NotBuilt)?;
            fates.push(((*mutant).clone(), Fate::NotBuilt));
        }
        taken.retain(|(number, _)| !refused.contains(number));
    }
    room.build(FAST)?;
    if trial.scripts[0].play(&room.program(), 0, trial.limits[0])? != Ending::Same {
        return Err(io::Error::other(
            "a program that plays no mutant is not the program itself",
        ));
    }
    fates.extend(trial.all(&room.program(), &taken, jobs)?);
    Ok(fates)
}

/// Makes a module with these mutants; or says which of them the front end refuses.
fn refused(room: &Room, sources: &[Source], mutants: &[Numbered]) -> io::Result<Option<HashSet<usize>>> {
    let mut files = Vec::new();
    for (place, source) in sources.iter().enumerate() {
        let own: Vec<Numbered> = mutants
            .iter()
            .filter(|(_, mutant)| mutant.source == place)
            .copied()
            .collect();
        let woven = Woven::new(source, &own);
        room.write(&source.of, &source.file, &woven.text)?;
        files.push((source, woven));
    }
    let Some(places) = room.module()? else {
        return Ok(None);
    };
    let mut refused = HashSet::new();
    for (of, file, line) in places {
        let woven = files.iter().find(|(source, _)| source.of == of && source.file == file);
        refused.extend(woven.and_then(|(_, woven)| woven.at(line)));
    }
    match refused.is_empty() {
        true => Err(io::Error::other("the front end refuses the mutants")),
        false => Ok(Some(refused)),
    }
}
