//! Plays a script through a program, and holds what it answers to what is expected, byte for byte.

use std::fs::{self, File};
use std::io::{self, Read};
use std::os::unix::process::ExitStatusExt;
use std::path::{Path, PathBuf};
use std::process::{Command, Stdio};

/// What ends a program that took more of the processor's time than it was given.
const KILLED: [i32; 2] = [9, 24];

pub struct Script {
    pub name: String,
    commands: PathBuf,
    answers: Vec<u8>,
}

/// How a play ended.
#[derive(Clone, Copy, PartialEq)]
pub enum Ending {
    Same,
    Differs,
    Crashed,
    Late,
}

impl Script {
    /// `commands` and `answers` are files.
    pub fn read(commands: &str, answers: &str) -> io::Result<Script> {
        let stem = Path::new(commands).file_stem().unwrap_or_default();
        Ok(Script {
            name: stem.to_string_lossy().into_owned(),
            commands: PathBuf::from(commands),
            answers: fs::read(answers)?,
        })
    }

    /// Plays a mutant, by its number; 0 is the program itself. It stops at the first byte that differs, and after so
    /// many seconds of the processor's time.
    pub fn play(&self, program: &Path, mutant: usize, limit: u64) -> io::Result<Ending> {
        let mut command = Command::new("sh");
        command
            .arg("-c")
            .arg(format!("ulimit -t {limit} && exec \"$0\""))
            .arg(program);
        command
            .env("MUTANT", mutant.to_string())
            .stdin(File::open(&self.commands)?);
        let mut child = command.stdout(Stdio::piped()).stderr(Stdio::null()).spawn()?;
        let (same, whole) = child.stdout.take().map_or(Ok((false, false)), |out| self.holds(out))?;
        if !same {
            child.kill()?;
        }
        let status = child.wait()?;
        Ok(match status.signal() {
            _ if !same => Ending::Differs,
            Some(signal) if KILLED.contains(&signal) => Ending::Late,
            Some(_) => Ending::Crashed,
            None if whole && status.success() => Ending::Same,
            None => Ending::Differs,
        })
    }

    /// Whether what is written is the answers' beginning, and whether it is all of them.
    fn holds(&self, mut out: impl Read) -> io::Result<(bool, bool)> {
        let mut place = 0;
        let mut part = [0; 65536];
        loop {
            let n = out.read(&mut part)?;
            if n == 0 {
                return Ok((true, place == self.answers.len()));
            }
            if !self.answers[place..].starts_with(&part[..n]) {
                return Ok((false, false));
            }
            place += n;
        }
    }
}

/// The processor's time that all plays took so far, in seconds: what the system tells of this program's children.
pub fn spent() -> io::Result<f64> {
    let told = fs::read_to_string("/proc/self/stat")?;
    let fields = told.rsplit(')').next().unwrap_or("").split_whitespace();
    let ticks: f64 = fields
        .skip(13)
        .take(2)
        .filter_map(|field| field.parse::<f64>().ok())
        .sum();
    Ok(ticks / 100.0)
}
