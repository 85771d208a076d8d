//! What is tried, in five areas: a script of commands for each.

mod annex_f;
mod cipher;
mod draft;
mod draws;
mod forger;
mod lines;
mod reader;
mod script;
mod sheets;
mod tags;

use script::Script;
use std::process::ExitCode;

pub const AREAS: [&str; 5] = ["cipher", "sheets", "tags", "reader", "lines"];

/// The numbers that a command can answer.
const NUMBERS: [std::ops::RangeInclusive<u8>; 3] = [1..=8, 20..=24, 30..=35];

pub fn write(area: &str) -> ExitCode {
    let mut script = Script::default();
    match area {
        "cipher" => cipher::all(&mut script),
        "sheets" => sheets::all(&mut script),
        "tags" => tags::all(&mut script),
        "reader" => reader::all(&mut script),
        _ => lines::all(&mut script),
    }
    script.finish()
}
