//! The crates of the repository, by crates.txt: which a program reaches, and which hold the standard's work.

use crate::source::Source;
use std::fs;
use std::io;
use std::path::{Path, PathBuf};

/// The program that plays the scripts.
pub const PROGRAM: &str = "roualint";

/// What reads commands and writes answers, and holds nothing of the standard.
const AROUND: [&str; 9] = [
    "cipher_commands",
    "commands",
    "console",
    "input",
    "reader_commands",
    "tag_commands",
    "text",
    "texts",
    "told",
];

/// A crate and what it names.
struct Line {
    name: String,
    needs: Vec<String>,
}

pub struct Crates {
    root: PathBuf,
    lines: Vec<Line>,
}

impl Crates {
    pub fn read(root: &Path) -> io::Result<Crates> {
        let own = fs::read_to_string(root.join("crates.txt"))?;
        Ok(Crates {
            root: root.to_path_buf(),
            lines: own.lines().filter_map(line).collect(),
        })
    }

    /// The libraries that a crate names, of the repository and of the kit.
    pub fn uses(&self, name: &str) -> Vec<String> {
        let line = self.lines.iter().find(|line| line.name == name);
        line.map_or(Vec::new(), |line| line.needs.clone())
    }

    /// All crates of the repository that the program reaches.
    pub fn reached(&self) -> Vec<String> {
        let mut reached = vec![PROGRAM.to_string()];
        let mut at = 0;
        while at < reached.len() {
            for name in self.uses(&reached[at]) {
                if self.own(&name) && !reached.contains(&name) {
                    reached.push(name);
                }
            }
            at += 1;
        }
        reached.remove(0);
        reached
    }

    /// Does it stand in the repository?
    pub fn own(&self, name: &str) -> bool {
        self.folder(name).is_dir()
    }

    pub fn folder(&self, name: &str) -> PathBuf {
        self.root.join("crates").join(name).join("src")
    }

    /// The crates whose mutants are made where none are named.
    pub fn worked(&self) -> Vec<String> {
        let mut names = self.reached();
        names.retain(|name| !AROUND.contains(&name.as_str()));
        names.sort();
        names
    }

    pub fn sources(&self, name: &str) -> io::Result<Vec<Source>> {
        let mut found = Vec::new();
        for file in files(&self.folder(name))? {
            let text = fs::read_to_string(self.folder(name).join(&file))?;
            found.push(Source::new(name, file, text));
        }
        Ok(found)
    }
}

fn line(text: &str) -> Option<Line> {
    let (name, needs) = text.split('#').next()?.split_once(':')?;
    let needs = needs.split_whitespace().map(str::to_string).collect();
    Some(Line {
        name: name.trim().to_string(),
        needs,
    })
}

/// All files below a folder, in order, from that folder on.
pub fn files(folder: &Path) -> io::Result<Vec<PathBuf>> {
    let mut found = Vec::new();
    for entry in fs::read_dir(folder)? {
        let path = entry?.path();
        let name = PathBuf::from(path.file_name().unwrap_or_default());
        if path.is_dir() {
            found.extend(files(&path)?.into_iter().map(|file| name.join(file)));
        } else {
            found.push(name);
        }
    }
    found.sort();
    Ok(found)
}
