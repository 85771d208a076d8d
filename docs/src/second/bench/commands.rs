//! The bench's commands: one tag with its two areas, a reader's keys, and the answer to each line.
//!
//! Whatever is wrong with a line is found before anything is called: first its words, then its fields from left to
//! right, then whether there is a tag or a key to use it on.

use super::orders;
use super::words::{as_many, block, bytes, exactly, first, number, room, shown, words, Fault, LONGEST_LINE};
use crate::standard::aes::{decrypt, encrypt};
use crate::standard::build::{build, MESSAGE_ROOM};
use crate::standard::calls::{Function, DONE};
use crate::standard::frames::{Kind, KINDS};
use crate::standard::judge::{judge, DATA_ROOM, OWN_MESSAGE};
use crate::standard::memory::Memory;
use crate::standard::sheet::{self, Key};
use crate::standard::tag::{Answer, Tag, DRAWS, ROOM};
use std::fs::File;
use std::io::Read;

/// A line for each number that an answer can have, and one that names all commands.
pub const NUMBERS: &str = include_str!("../../../numbers.txt");
pub const HELP: &str = include_str!("../../../help.txt");

pub struct Console {
    pub tag: Option<Tag>,
    pub memory: Memory,
    /// The reader's. Of a record it has the keys alone.
    keys: Option<Key>,
}

impl Default for Console {
    fn default() -> Console {
        Console {
            tag: None,
            memory: Memory {
                identity: Vec::new(),
                user: Vec::new(),
            },
            keys: None,
        }
    }
}

impl Console {
    /// The answer to a line, which is given without its end. A line with no word has none.
    pub fn answer(&mut self, line: &[u8]) -> Option<String> {
        let said = match line.len() {
            0..=LONGEST_LINE => {
                let words = words(line);
                let (name, rest) = words.split_first()?;
                self.command(name, rest)
            }
            _ => Err("line over 65536 bytes"),
        };
        Some(said.unwrap_or_else(|fault| format!("error: {fault}")))
    }

    fn command(&mut self, name: &[u8], rest: &[&[u8]]) -> Result<String, Fault> {
        match name {
            b"sheet" => self.sheet(rest),
            b"area" => self.area(rest),
            b"areas" => self.areas(rest),
            b"power" => self.power(rest),
            b"message" => self.message(rest),
            b"keys" => self.keys(rest),
            b"build" => self.build(rest),
            b"judge" => self.judge(rest),
            b"aes" => aes(rest),
            b"cbc" => cbc(rest),
            b"cmac" => cmac(rest),
            b"explain" => explain(rest),
            b"help" => exactly::<0>(rest).map(|_| HELP.trim_end().to_string()),
            _ => Err("unknown command"),
        }
    }

    /// A refused sheet leaves tag and areas as they were.
    fn sheet(&mut self, rest: &[&[u8]]) -> Result<String, Fault> {
        let [sheet] = exactly(rest)?;
        Ok(match sheet::read(&bytes(sheet)?) {
            Ok(setup) => {
                let [identity, user] = setup.words.map(|words| vec![0; 2 * words]);
                self.memory = Memory { identity, user };
                self.tag = Some(Tag::power_up(setup));
                ok()
            }
            Err(refusal) => format!("refused {} at {}", refusal.number, refusal.place),
        })
    }

    fn area(&mut self, rest: &[&[u8]]) -> Result<String, Fault> {
        let [area, content] = exactly(rest)?;
        let area = match number(area)? {
            0 => &mut self.memory.identity,
            1 => &mut self.memory.user,
            _ => return Err("area 0 or 1"),
        };
        *area = bytes(content)?;
        Ok(ok())
    }

    fn areas(&self, rest: &[&[u8]]) -> Result<String, Fault> {
        let [] = exactly(rest)?;
        let [identity, user] = [&self.memory.identity, &self.memory.user].map(|area| shown(area));
        Ok(format!("area 0 {identity} area 1 {user}"))
    }

    fn power(&mut self, rest: &[&[u8]]) -> Result<String, Fault> {
        let [] = exactly(rest)?;
        let tag = self.tag.take().ok_or(NO_TAG)?;
        self.tag = Some(Tag::power_up(tag.setup));
        Ok(ok())
    }

    fn message(&mut self, rest: &[&[u8]]) -> Result<String, Fault> {
        as_many(rest, rest.len().clamp(1, 3))?;
        let message = bytes(rest[0])?;
        let given = match rest.get(1).copied() {
            None | Some(b"*") => None,
            Some(word) => Some(bytes(word)?),
        };
        let length = rest.get(2).map_or(Ok(ROOM), |word| room(word))?;
        let tag = self.tag.as_mut().ok_or(NO_TAG)?;
        let draws = given.map_or_else(random, Ok)?;
        let mut room = vec![0; length];
        let answer = tag.step(&message, &draws, &mut room, &mut self.memory);
        let state = tag.session.name();
        Ok(match answer {
            Answer::Refused(number) => format!("refused {number} state {state}"),
            Answer::Accepted(length, purpose) => {
                let purpose = purpose.map_or("-".to_string(), |purpose| purpose.to_string());
                format!("reply {} state {state} purpose {purpose}", shown(&room[..length]))
            }
        })
    }

    fn keys(&mut self, rest: &[&[u8]]) -> Result<String, Fault> {
        let [enc, mac] = exactly(rest)?;
        let enc = block(enc)?;
        let (present, mac) = match mac {
            b"-" => (false, [0; 16]),
            _ => (true, block(mac)?),
        };
        self.keys = Some(reader_keys(enc, present, mac));
        Ok(ok())
    }

    /// TAM1, IAM1 and MAM1 are of fields alone; no key is looked at.
    fn build(&self, rest: &[&[u8]]) -> Result<String, Fault> {
        let (name, rest) = first(rest)?;
        let kind = orders::NAMES.iter().position(|known| known.as_bytes() == name);
        let kind = KINDS[kind.ok_or("unknown message")?];
        let order = orders::read(kind, rest)?;
        let keys = match kind {
            Kind::Tam1 | Kind::Iam1 | Kind::Mam1 => reader_keys([0; 16], false, [0; 16]),
            _ => self.keys.ok_or(NO_KEYS)?,
        };
        let mut room = [0; MESSAGE_ROOM];
        Ok(
            match order
                .ok_or(OWN_MESSAGE)
                .and_then(|order| build(&keys, &order, &mut room))
            {
                Ok(length) => format!("message {}", shown(&room[..length])),
                Err(number) => refused(number),
            },
        )
    }

    fn judge(&self, rest: &[&[u8]]) -> Result<String, Fault> {
        let [message, reply] = exactly(rest)?;
        let (message, reply) = (bytes(message)?, bytes(reply)?);
        let keys = self.keys.ok_or(NO_KEYS)?;
        let mut room = [0; DATA_ROOM];
        Ok(match judge(&keys, &message, &reply, &mut room) {
            Ok(judged) => {
                let (length, word) = match judged.data {
                    None => (0, "-"),
                    Some((length, true)) => (length, "proved"),
                    Some((length, false)) => (length, "unproved"),
                };
                let challenge = judged.challenge.map_or(Vec::new(), |challenge| challenge.to_vec());
                format!(
                    "accepted data {} challenge {} {word}",
                    shown(&room[..length]),
                    shown(&challenge)
                )
            }
            Err(number) => refused(number),
        })
    }
}

const NO_TAG: Fault = "no tag yet";
const NO_KEYS: Fault = "no keys yet";

fn ok() -> String {
    "ok".to_string()
}

fn refused(number: u8) -> String {
    format!("refused {number}")
}

fn reader_keys(enc_key: [u8; 16], mac: bool, mac_key: [u8; 16]) -> Key {
    Key {
        id: 0,
        mac,
        mpi: 0,
        enc_key,
        mac_key,
    }
}

fn aes(rest: &[&[u8]]) -> Result<String, Fault> {
    let (form, rest) = first(rest)?;
    let way = match form {
        b"enc" => encrypt,
        b"dec" => decrypt,
        _ => return Err(NO_FORM),
    };
    let [key, input] = exactly(rest)?;
    Ok(out(&way(&block(key)?, &block(input)?)))
}

fn cbc(rest: &[&[u8]]) -> Result<String, Fault> {
    let (form, rest) = first(rest)?;
    let function = match form {
        b"enc_aes" => Function::CbcEncAes,
        b"dec_aes" => Function::CbcDecAes,
        b"enc_aes_inv" => Function::CbcEncAesInv,
        b"dec_aes_inv" => Function::CbcDecAesInv,
        _ => return Err(NO_FORM),
    };
    let [iv, key, data, length] = exactly(rest)?;
    Ok(called(
        function,
        &block(iv)?,
        &block(key)?,
        &bytes(data)?,
        room(length)?,
    ))
}

fn cmac(rest: &[&[u8]]) -> Result<String, Fault> {
    let [key, data, length] = exactly(rest)?;
    Ok(called(
        Function::Cmac96,
        &[0; 16],
        &block(key)?,
        &bytes(data)?,
        room(length)?,
    ))
}

const NO_FORM: Fault = "unknown form";

fn called(function: Function, iv: &[u8; 16], key: &[u8; 16], data: &[u8], length: usize) -> String {
    let mut room = vec![0; length];
    match function.call(iv, key, data, &mut room) {
        DONE => out(&room[..function.needed(data.len())]),
        number => refused(number),
    }
}

fn out(bytes: &[u8]) -> String {
    format!("out {}", shown(bytes))
}

fn explain(rest: &[&[u8]]) -> Result<String, Fault> {
    let [asked] = exactly(rest)?;
    let start = format!("{} ", number(asked)?);
    let line = NUMBERS.lines().find(|line| line.starts_with(&start));
    line.map(str::to_string).ok_or("no such number")
}

/// The draws of one message, from the system's random source.
fn random() -> Result<Vec<u8>, Fault> {
    let mut draws = vec![0; DRAWS];
    let read = File::open("/dev/urandom").and_then(|mut source| source.read_exact(&mut draws));
    read.map(|_| draws).map_err(|_| "no random bytes")
}
