//! The proved code beside plain Rust, in one run: nanoseconds a block of AES, and messages a second of the soft tag.
//!
//! What is compared is measured in turn, round after round, and the best round of each counts, so that a busy moment of
//! the machine hits all alike and then drops out. Each pair must give the same bytes first.
//!
//!     docs/src/speed/run

mod aes;
mod blocks;
mod exchanges;
mod messages;
mod plain_aes;

// Of the second program, the tag, and what makes the messages that it accepts.
#[path = "../second/standard/chaining.rs"]
#[allow(dead_code)]
mod chaining;
#[path = "../second/standard/cmac.rs"]
#[allow(dead_code)]
mod cmac;
#[path = "../second/standard/frames.rs"]
#[allow(dead_code)]
mod frames;
#[path = "../second/hex.rs"]
#[allow(dead_code)]
mod hex;
#[path = "../second/standard/memory.rs"]
#[allow(dead_code)]
mod memory;
#[path = "../second/standard/messages.rs"]
#[allow(dead_code)]
mod reader;
#[path = "../second/standard/session.rs"]
#[allow(dead_code)]
mod session;
#[path = "../second/standard/sheet.rs"]
#[allow(dead_code)]
mod sheet;
#[path = "../second/standard/tag.rs"]
#[allow(dead_code)]
mod tag;

use std::process::ExitCode;

fn main() -> ExitCode {
    match blocks::measure().and_then(|_| messages::measure()) {
        Ok(()) => ExitCode::SUCCESS,
        Err(name) => {
            eprintln!("{name}: Rust and Rattle differ");
            ExitCode::from(1)
        }
    }
}
