//! Refusals by their numbers, and the line of docs/numbers.txt that explains each.

use core::error::Error;
use core::fmt;

const NUMBERS: &str = include_str!("../../../docs/numbers.txt");

/// A refusal, by its number.
#[derive(Clone, Copy, PartialEq, Eq, Debug)]
pub struct Refusal(u8);

impl Refusal {
    /// Nothing where the number is 0.
    pub(crate) fn check(number: u8) -> Result<(), Refusal> {
        match number {
            0 => Ok(()),
            _ => Err(Refusal(number)),
        }
    }

    /// Its number: 1 to 7 of the tag, 8 of chaining, 20 to 24 of the reader's side, 30 to 35 of a sheet.
    pub fn number(self) -> u8 {
        self.0
    }

    /// What it means, and where to look first.
    pub fn text(self) -> &'static str {
        NUMBERS
            .lines()
            .find_map(|line| self.explained(line))
            .unwrap_or("no such number")
    }

    /// What a line says behind this number.
    fn explained(self, line: &'static str) -> Option<&'static str> {
        let (number, text) = line.split_once(' ')?;
        (number.parse() == Ok(self.0)).then_some(text)
    }
}

impl fmt::Display for Refusal {
    fn fmt(&self, f: &mut fmt::Formatter<'_>) -> fmt::Result {
        write!(f, "{} {}", self.number(), self.text())
    }
}

impl Error for Refusal {}

/// A sheet's refusal, with its place.
#[derive(Clone, Copy, PartialEq, Eq, Debug)]
pub struct SheetRefusal {
    /// 30 to 35.
    pub refusal: Refusal,
    /// Counted from 0: the place of the kind byte of the record that is refused; for 35 of the first byte behind the
    /// end record; for 30, where no record is there, the sheet's length.
    pub place: usize,
}

impl fmt::Display for SheetRefusal {
    fn fmt(&self, f: &mut fmt::Formatter<'_>) -> fmt::Result {
        write!(f, "{} (place {})", self.refusal, self.place)
    }
}

impl Error for SheetRefusal {}
