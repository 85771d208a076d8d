//! The bench at the standard input: each line with a word is answered by one line, as soon as it has ended.

pub mod commands;
pub mod orders;
pub mod words;

use commands::Console;
use std::io::{self, BufRead, Write};
use std::process::ExitCode;
use words::LONGEST_LINE;

pub fn run() -> ExitCode {
    match answers(io::stdin().lock(), io::stdout().lock()) {
        Ok(()) => ExitCode::SUCCESS,
        Err(error) => {
            eprintln!("answers: {error}");
            ExitCode::from(1)
        }
    }
}

fn answers(mut input: impl BufRead, mut output: impl Write) -> io::Result<()> {
    let mut console = Console::default();
    while let Some(line) = next_line(&mut input)? {
        if let Some(answer) = console.answer(&line) {
            output.write_all(format!("{answer}\n").as_bytes())?;
            output.flush()?;
        }
    }
    Ok(())
}

/// The next line without its end. Of a line that is too long one byte more than a line may have is kept, and the rest
/// is passed over.
fn next_line(input: &mut impl BufRead) -> io::Result<Option<Vec<u8>>> {
    let mut line = Vec::new();
    let mut begun = false;
    loop {
        let here = input.fill_buf()?;
        if here.is_empty() {
            return Ok(begun.then_some(line));
        }
        begun = true;
        let end = here.iter().position(|&byte| byte == b'\n');
        let part = &here[..end.unwrap_or(here.len())];
        line.extend(part.iter().take(LONGEST_LINE + 1 - line.len()));
        let read = part.len() + usize::from(end.is_some());
        input.consume(read);
        if end.is_some() {
            return Ok(Some(line));
        }
    }
}
