//! The soft tag: ISO/IEC 29167-10, clauses 8, 9.4 to 9.6, 11 and Annex A, with the numbers, draws and rooms of paper
//! 01.
//!
//! A message is judged first and taken after that: what judges it can write neither room nor memory.

use super::aes::{encrypt, Block};
use super::chaining::{cbc_dec_aes, cbc_enc_aes};
use super::cmac::cmac_96;
use super::frames::{self, constant, constant_bytes, Fields, Kind};
use super::memory::{permits, request, BlockSize, Memory, Request};
use super::session::Session;
use super::sheet::{Key, Setup};

const OTHER_ERROR: u8 = 1;
const NOT_SUPPORTED: u8 = 2;
const MEMORY_OVERRUN: u8 = 3;
const MEMORY_WRITE_ERROR: u8 = 4;
const OUT_OF_TURN: u8 = 5;
const PROOF_WRONG: u8 = 6;
const BENCH_FAULT: u8 = 7;

pub const DRAWS: usize = 10;
pub const ROOM: usize = 172;

#[derive(Clone, Copy, PartialEq, Debug)]
pub enum Answer {
    /// The number, 1 to 7.
    Refused(u8),
    /// The reply's length, and Purpose where a message brought one.
    Accepted(usize, Option<u8>),
}

pub struct Tag {
    pub setup: Setup,
    pub session: Session,
}

/// What becomes of an accepted message.
struct Taken {
    reply: Vec<u8>,
    purpose: Option<u8>,
    next: Session,
    write: Option<(Request, Vec<u8>)>,
}

impl Tag {
    pub fn power_up(setup: Setup) -> Tag {
        Tag {
            setup,
            session: Session::Initial,
        }
    }

    /// One message. Numbers 1 to 6 leave the tag in Initial, number 7 as it was; no refusal touches room or memory.
    pub fn step(&mut self, message: &[u8], draws: &[u8], room: &mut [u8], memory: &mut Memory) -> Answer {
        let sizes = [memory.identity.len(), memory.user.len()];
        if draws.len() != DRAWS || room.len() < ROOM || sizes != self.setup.words.map(|words| 2 * words) {
            return Answer::Refused(BENCH_FAULT);
        }
        let session = std::mem::replace(&mut self.session, Session::Initial);
        match self.judged(session, message, draws, memory) {
            Err(number) => Answer::Refused(number),
            Ok(taken) => {
                room[..taken.reply.len()].copy_from_slice(&taken.reply);
                if let Some((request, data)) = taken.write {
                    memory.store(&request, &data);
                }
                self.session = taken.next;
                Answer::Accepted(taken.reply.len(), taken.purpose)
            }
        }
    }

    /// The order of paper 01: empty, method, step or feature, out of turn, length, and the rest by kind. The pairs are
    /// the rows of Table A.1.
    fn judged(&self, session: Session, message: &[u8], draws: &[u8], memory: &Memory) -> Result<Taken, u8> {
        let first = *message.first().ok_or(OTHER_ERROR)?;
        let kind = frames::kind_of(first)
            .filter(|&kind| self.has(kind))
            .ok_or(NOT_SUPPORTED)?;
        let whole =
            || check(frames::length_fits(Some(kind), message), OTHER_ERROR).map(|_| frames::fields(kind, message));
        match (kind, session) {
            (Kind::Tam1, _) => self.tam1(whole()?, draws),
            (Kind::Tam2, _) => self.tam2(whole()?, draws, memory),
            (Kind::Iam1, Session::Initial | Session::IaOk) => self.iam1(whole()?, draws),
            (Kind::Iam2, Session::IamInit(keyid, tchallenge)) => self.iam2(whole()?, keyid, tchallenge),
            (Kind::Iam3, Session::IamInit(keyid, tchallenge)) => self.iam3(whole()?, message, keyid, tchallenge),
            (Kind::Mam1, Session::Initial | Session::IaOk) => self.mam1(whole()?, draws),
            (Kind::Mam2, Session::MamInit(keyid, tchallenge, ichallenge)) => {
                self.mam2(whole()?, keyid, tchallenge, ichallenge)
            }
            _ => Err(OUT_OF_TURN),
        }
    }

    /// The features that are judged with the method and the step. Tag authentication is always there.
    pub fn has(&self, kind: Kind) -> bool {
        match kind {
            Kind::Tam1 | Kind::Tam2 => true,
            Kind::Iam1 | Kind::Iam2 => self.setup.features[3],
            Kind::Iam3 => self.setup.features[4],
            Kind::Mam1 | Kind::Mam2 => self.setup.features[5],
        }
    }

    /// BlockSize 0 is always there (9.4.5).
    fn has_size(&self, blocksize: u128) -> bool {
        blocksize == 0 || self.setup.features[0]
    }

    /// ProtModes 2 and 3 also need a MAC key.
    fn has_mode(&self, protmode: u128, key: &Key) -> bool {
        protmode < 4 && self.setup.features[6 + protmode as usize] && (protmode < 2 || key.mac)
    }

    fn key(&self, keyid: u8) -> Result<&Key, u8> {
        self.setup.keys.iter().find(|key| key.id == keyid).ok_or(NOT_SUPPORTED)
    }

    /// Profile, right, memory, in this order. A BlockSize that is not there is a block not supported (9.5.8); TAM2 has
    /// refused it before.
    fn block(&self, f: Fields, key: &Key) -> Result<Request, u8> {
        let number = f.profile as usize;
        let profile = self.setup.profiles[number].ok_or(NOT_SUPPORTED)?;
        check(permits(key.mpi, number), NOT_SUPPORTED)?;
        let size = BlockSize {
            bit: f.blocksize as usize,
        };
        let asked = request(&profile, size, f.offset as usize, f.blockcount as usize + 1);
        check(self.has_size(f.blocksize) && asked.fits(&profile), MEMORY_OVERRUN)?;
        Ok(asked)
    }

    /// 9.4.2 and 9.4.3.
    fn tam1(&self, f: Fields, draws: &[u8]) -> Result<Taken, u8> {
        check(f.rfu == 0, NOT_SUPPORTED)?;
        let key = self.key(f.keyid as u8)?;
        let block = authentication_block(key, "C_TAM1", &draws[..4], f);
        Ok(replied(block.to_vec(), Session::Initial))
    }

    /// 9.4.5 and 9.4.6, Tables 7 to 14.
    fn tam2(&self, f: Fields, draws: &[u8], memory: &Memory) -> Result<Taken, u8> {
        check(self.has_size(f.blocksize), NOT_SUPPORTED)?;
        check(self.setup.features[1 + f.rev as usize], NOT_SUPPORTED)?;
        check(f.rfu == 0, NOT_SUPPORTED)?;
        let key = self.key(f.keyid as u8)?;
        let asked = self.block(f, key)?;
        check(self.has_mode(f.protmode, key), NOT_SUPPORTED)?;

        let name = if f.rev == 0 {
            "C_TAM2".to_string()
        } else {
            format!("C_TAM2_{}", f.protmode)
        };
        let first = authentication_block(key, &name, &draws[..4], f);
        let mut data = if f.rev == 0 { Vec::new() } else { header(f) };
        data.extend(memory.window(&asked));
        data.resize(
            16 * frames::d(f.blocksize as usize, f.rev == 1, f.blockcount as usize),
            0,
        );
        if f.protmode == 1 || f.protmode == 3 {
            data = cbc_enc_aes(&first, &key.enc_key, &data);
        }
        let mut reply = [&first[..], &data[..]].concat();
        if f.protmode == 2 || f.protmode == 3 {
            reply.extend(cmac_96(&key.mac_key, &reply));
        }
        Ok(replied(reply, Session::Initial))
    }

    /// 9.5.2 and 9.5.3.
    fn iam1(&self, f: Fields, draws: &[u8]) -> Result<Taken, u8> {
        check(f.rfu == 0, NOT_SUPPORTED)?;
        let keyid = self.key(f.keyid as u8)?.id;
        Ok(replied(draws.to_vec(), Session::IamInit(keyid, part(draws, 0))))
    }

    /// 9.5.5 and 9.5.6.
    fn iam2(&self, f: Fields, keyid: u8, tchallenge: [u8; 10]) -> Result<Taken, u8> {
        check(f.rfu == 0, NOT_SUPPORTED)?;
        let opened = Opened::of(self.key(keyid)?, f);
        check(opened.constant == constant("C_IAM2"), PROOF_WRONG)?;
        check(opened.tchallenge == tchallenge, PROOF_WRONG)?;
        Ok(proved(opened, None))
    }

    /// 9.5.8 and 9.5.9. ProtMode is judged with the record that IAM1 named. The MAC is over what was sent, all before
    /// it.
    fn iam3(&self, f: Fields, message: &[u8], keyid: u8, tchallenge: [u8; 10]) -> Result<Taken, u8> {
        let key = self.key(keyid)?;
        check(self.has_mode(f.protmode, key), NOT_SUPPORTED)?;
        check(f.rfu == 0, NOT_SUPPORTED)?;
        let asked = self.block(f, key)?;
        check(!asked.locked(&self.setup.locks), MEMORY_WRITE_ERROR)?;

        let opened = Opened::of(key, f);
        check(
            opened.constant == constant(&format!("C_IAM3_{}", f.protmode)),
            PROOF_WRONG,
        )?;
        check(opened.tchallenge == tchallenge, PROOF_WRONG)?;
        let iresponse = &message[4..];
        let (covered, mac) = iresponse.split_at(iresponse.len() - frames::mac_bytes(f.protmode as usize));
        check(mac.is_empty() || mac == cmac_96(&key.mac_key, covered), PROOF_WRONG)?;
        let (first, sent) = covered.split_at(16);
        let data = match f.protmode {
            1 | 3 => cbc_dec_aes(&part(first, 0), &key.enc_key, sent),
            _ => sent.to_vec(),
        };
        let (head, rest) = data.split_at(frames::header_bits(f.blocksize as usize) / 8);
        let (words, filler) = rest.split_at(asked.bytes());
        check(head == header(f), PROOF_WRONG)?;
        check(filler.iter().all(|&byte| byte == 0), PROOF_WRONG)?;
        Ok(proved(opened, Some((asked, words.to_vec()))))
    }

    /// 9.6.2 and 9.6.3. TChallenge[31:0] are the last four draws; the first six go in the clear.
    fn mam1(&self, f: Fields, draws: &[u8]) -> Result<Taken, u8> {
        check(f.rfu == 0, NOT_SUPPORTED)?;
        let key = self.key(f.keyid as u8)?;
        let block = authentication_block(key, "C_MAM1", &draws[6..], f);
        let ichallenge_31_0 = (f.ichallenge as u32).to_be_bytes();
        let next = Session::MamInit(key.id, part(draws, 0), ichallenge_31_0);
        Ok(replied([&block[..], &draws[..6]].concat(), next))
    }

    /// 9.6.5 and 9.6.6.
    fn mam2(&self, f: Fields, keyid: u8, tchallenge: [u8; 10], ichallenge_31_0: [u8; 4]) -> Result<Taken, u8> {
        check(f.rfu == 0, NOT_SUPPORTED)?;
        let opened = Opened::of(self.key(keyid)?, f);
        check(opened.constant == constant("C_MAM2"), PROOF_WRONG)?;
        check(opened.middle == ichallenge_31_0, PROOF_WRONG)?;
        check(opened.tchallenge == tchallenge, PROOF_WRONG)?;
        Ok(proved(opened, None))
    }
}

fn check(holds: bool, number: u8) -> Result<(), u8> {
    holds.then_some(()).ok_or(number)
}

/// AES-ENC of a 16-bit constant, 32 bits of the tag, and IChallenge (9.4.3, 9.4.6.1, 9.6.3).
fn authentication_block(key: &Key, name: &str, random: &[u8], f: Fields) -> Block {
    let constant = constant_bytes(constant(name), 16, 0);
    let challenge = &f.ichallenge.to_be_bytes()[6..];
    encrypt(&key.enc_key, &part(&[&constant[..], random, challenge].concat(), 0))
}

/// The first block of an IResponse. The reader made it by AES-DEC, so AES-ENC opens it.
struct Opened {
    constant: u16,
    purpose: u8,
    middle: [u8; 4],
    tchallenge: [u8; 10],
}

impl Opened {
    fn of(key: &Key, f: Fields) -> Opened {
        let plain = encrypt(&key.enc_key, &f.iresponse.to_be_bytes());
        let first = u16::from_be_bytes(part(&plain, 0));
        Opened {
            constant: first >> 4,
            purpose: (first & 15) as u8,
            middle: part(&plain, 2),
            tchallenge: part(&plain, 6),
        }
    }
}

fn replied(reply: Vec<u8>, next: Session) -> Taken {
    Taken {
        reply,
        purpose: None,
        next,
        write: None,
    }
}

/// The reader is authenticated: an empty reply.
fn proved(opened: Opened, write: Option<(Request, Vec<u8>)>) -> Taken {
    Taken {
        reply: Vec::new(),
        purpose: Some(opened.purpose),
        next: Session::IaOk,
        write,
    }
}

fn header(f: Fields) -> Vec<u8> {
    frames::header(f).expect("fields of a message fit their widths")
}

/// N bytes from a place on.
fn part<const N: usize>(bytes: &[u8], at: usize) -> [u8; N] {
    bytes[at..at + N].try_into().expect("N bytes")
}
