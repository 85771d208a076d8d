//! A folder in which programs are built: a copy of the sources, and the compiler that keeps the module.

use crate::crates::{files, Crates, PROGRAM};
use crate::kit::{done, Kit, SOON};
use crate::woven::{ASKED, ASKS};
use std::collections::HashSet;
use std::fs;
use std::io;
use std::path::{Path, PathBuf};
use std::process::{Command, Stdio};

pub struct Room<'a> {
    kit: &'a Kit,
    folder: PathBuf,
    /// Each library with those that it uses, and the file that it starts at.
    libraries: Vec<(String, Vec<String>, PathBuf)>,
}

/// Where the front end refuses the sources: crate, file and line.
pub type Place = (String, PathBuf, usize);

impl<'a> Room<'a> {
    /// `played` is the C code that says which mutant is played.
    pub fn new(kit: &'a Kit, crates: &Crates, folder: PathBuf, played: &Path) -> io::Result<Room<'a>> {
        kit.keeper(&folder)?;
        let object = folder.join("played.o");
        done(Command::new("gcc").arg("-c").arg(played).arg("-o").arg(object))?;
        let libraries = Vec::new();
        let mut room = Room { kit, folder, libraries };
        copy(&crates.folder(PROGRAM), &room.sources(PROGRAM))?;
        let mut kits = vec!["std".to_string()];
        for name in crates.reached() {
            let (folder, mut uses) = (room.sources(&name), crates.uses(&name));
            copy(&crates.folder(&name), &folder)?;
            kits.extend(uses.iter().filter(|used| !crates.own(used)).cloned());
            uses.extend(["core", "std", ASKS].map(str::to_string));
            room.libraries.push((name, uses, folder.join("lib.rt")));
        }
        let asks = room.sources(ASKS);
        fs::create_dir_all(&asks)?;
        fs::write(asks.join("lib.rt"), ASKED)?;
        let uses = ["core", "std"].map(str::to_string).to_vec();
        room.libraries.push((ASKS.to_string(), uses, asks.join("lib.rt")));
        let mut at = 0;
        while at < kits.len() {
            let (name, uses) = (kits[at].clone(), kit.uses(&kits[at])?);
            let new: Vec<String> = uses.iter().filter(|used| !kits.contains(used)).cloned().collect();
            kits.extend(new);
            let source = kit.source(&name);
            room.libraries.push((name, uses, source));
            at += 1;
        }
        Ok(room)
    }

    fn sources(&self, of: &str) -> PathBuf {
        self.folder.join("crates").join(of)
    }

    pub fn write(&self, of: &str, file: &Path, text: &str) -> io::Result<()> {
        fs::write(self.sources(of).join(file), text)
    }

    pub fn program(&self) -> PathBuf {
        self.folder.join("program")
    }

    /// The words that name the sources.
    fn words(&self, command: &mut Command) {
        command
            .arg(self.sources(PROGRAM).join("main.rt"))
            .args(["--crate-name", PROGRAM]);
        for (name, uses, file) in &self.libraries {
            command.arg("--lib").arg(format!("{name}:{}={}", uses.join(","), file.display()));
        }
    }

    /// Makes a module of what stands in the room; or says what the front end refuses.
    pub fn module(&self) -> io::Result<Option<Vec<Place>>> {
        let module = self.folder.join("module.bc");
        if module.exists() {
            fs::remove_file(&module)?;
        }
        let mut command = self.kit.front(&self.folder);
        self.words(&mut command);
        let said = command.stdin(Stdio::null()).output()?.stderr; // it fails, since the program does nothing
        if module.exists() {
            return Ok(None);
        }
        let said = String::from_utf8_lossy(&said).into_owned();
        let start = format!("{}/", self.folder.join("crates").display());
        let place = |line: &str| {
            let (of, rest) = line.strip_prefix(&start)?.split_once('/')?;
            let (file, rest) = rest.split_once(':')?;
            let number = rest.split(':').next()?.parse().ok()?;
            Some((of.to_string(), PathBuf::from(file), number))
        };
        let errors = said.lines().filter(|line| line.contains(": error"));
        Ok(Some(errors.filter_map(place).collect()))
    }

    /// Makes a program of the module.
    pub fn build(&self, level: &str) -> io::Result<()> {
        let object = self.folder.join("program.o");
        self.kit.object(level, &self.folder.join("module.bc"), &object)?;
        let mut link = Command::new("gcc");
        link.arg("-Wl,--gc-sections").arg("-o").arg(self.program());
        done(link.arg(object).arg(self.folder.join("played.o")).args(self.kit.code()))
    }

    /// The functions that the program calls: those that the linker keeps where none is merged with its caller.
    pub fn called(&self) -> io::Result<HashSet<String>> {
        self.build(SOON)?;
        let told = Command::new("nm").arg(self.program()).output()?;
        let lines = String::from_utf8_lossy(&told.stdout).into_owned();
        let name = |line: &str| line.splitn(3, ' ').nth(2).map(str::to_string);
        Ok(lines.lines().filter_map(name).collect())
    }
}

fn copy(from: &Path, to: &Path) -> io::Result<()> {
    for file in files(from)? {
        let copy = to.join(&file);
        fs::create_dir_all(copy.parent().unwrap_or(to))?;
        fs::copy(from.join(&file), copy)?;
    }
    Ok(())
}
