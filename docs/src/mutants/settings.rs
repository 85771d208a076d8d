//! What the words of the command say.

use crate::play::Script;
use std::fs;
use std::io;
use std::path::PathBuf;

pub struct Settings {
    /// The kit's first guide, which tells where the kit is.
    pub guide: String,
    pub folder: PathBuf,
    pub count: usize,
    pub seed: u64,
    pub jobs: usize,
    /// What an earlier run found: those that survived it, and no others, are tried.
    pub again: Option<String>,
    pub scripts: Vec<Script>,
    /// None: all that hold the standard's work.
    pub crates: Vec<String>,
}

impl Settings {
    /// Words `NAME=VALUE`; a script is `script=COMMANDS,ANSWERS`, two files. Any other word is a crate's name.
    pub fn read(words: impl Iterator<Item = String>) -> io::Result<Settings> {
        let mut settings = Settings {
            guide: String::new(),
            folder: PathBuf::new(),
            count: usize::MAX,
            seed: 1,
            jobs: 1,
            again: None,
            scripts: Vec::new(),
            crates: Vec::new(),
        };
        for word in words {
            let Some((name, value)) = word.split_once('=') else {
                settings.crates.push(word);
                continue;
            };
            match name {
                "guide" => settings.guide = value.to_string(),
                "folder" => settings.folder = std::path::absolute(value)?,
                "count" => settings.count = number(value)?,
                "seed" => settings.seed = number(value)? as u64,
                "jobs" => settings.jobs = number(value)?.max(1),
                "again" => settings.again = Some(fs::read_to_string(value)?),
                "script" => {
                    let (commands, answers) = value.split_once(',').ok_or(wrong(value))?;
                    settings.scripts.push(Script::read(commands, answers)?);
                }
                _ => return Err(wrong(name)),
            }
        }
        Ok(settings)
    }
}

fn number(value: &str) -> io::Result<usize> {
    value.parse().map_err(|_| wrong(value))
}

fn wrong(word: &str) -> io::Error {
    io::Error::new(io::ErrorKind::InvalidInput, format!("what is '{word}'?"))
}
