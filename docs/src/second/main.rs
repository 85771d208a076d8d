//! The second program: the same standards once more, in plain Rust with no crates.
//!
//! It is written from the papers alone (FIPS 197, SP 800-38A, SP 800-38B, ISO/IEC 29167-10, the house rules of paper
//! 01) and shares no text with the proved crates. `standard/` is the papers, `bench/` the commands of docs/GUIDE.md
//! over it, and `cases/` what is tried.
//!
//!     second AREA       writes a script of commands: cipher, sheets, tags, reader or lines
//!     second answers    answers the commands on standard input, as the proved program does
//!
//! Where a paper prints the answer, the own answer is held against the printed one first; what a script has to show
//! is counted while it is written. Where an answer differs, or where a count is missed, it says so on standard error
//! and exits with status 1.
//!
//!     rustc -O --edition 2021 -o second docs/src/second/main.rs

mod bench;
mod cases;
mod hex;
mod standard;

use std::process::ExitCode;

fn main() -> ExitCode {
    match std::env::args().nth(1).as_deref() {
        Some("answers") => bench::run(),
        Some(area) if cases::AREAS.contains(&area) => cases::write(area),
        _ => {
            eprintln!("one argument: {} or answers", cases::AREAS.join(", "));
            ExitCode::from(2)
        }
    }
}
