//! What can be wrong with a call of the tag: each check by itself, in the order of paper 01.
//!
//! The tag stops at the first that fails; here all are looked at, so that it shows where two meet.

use crate::standard::aes::encrypt;
use crate::standard::chaining::cbc_dec_aes;
use crate::standard::cmac::cmac_96;
use crate::standard::frames::{self, Fields, Kind};
use crate::standard::memory::{permits, request, BlockSize, Request};
use crate::standard::session::Session;
use crate::standard::sheet::Key;
use crate::standard::tag::{Tag, DRAWS, ROOM};

#[derive(Clone, Copy, PartialEq, Eq, Debug)]
pub enum Check {
    Draws,
    Room,
    Area,
    Empty,
    /// No method or step.
    Method,
    Feature,
    Turn,
    Length,
    Size,
    Rev,
    Rfu,
    Key,
    Profile,
    Right,
    Memory,
    Mode,
    MacKey,
    Lock,
    Constant,
    IChallenge,
    Challenge,
    Mac,
    Header,
    Filler,
}

use Check::*;

pub const BENCH: [Check; 3] = [Draws, Room, Area];

/// The checks of a kind, in their order.
pub fn of(kind: Kind) -> &'static [Check] {
    match kind {
        Kind::Tam1 => &[Length, Rfu, Key],
        Kind::Tam2 => &[Length, Size, Rev, Rfu, Key, Profile, Right, Memory, Mode, MacKey],
        Kind::Iam1 | Kind::Mam1 => &[Feature, Turn, Length, Rfu, Key],
        Kind::Iam2 => &[Feature, Turn, Length, Rfu, Constant, Challenge],
        Kind::Mam2 => &[Feature, Turn, Length, Rfu, Constant, IChallenge, Challenge],
        Kind::Iam3 => &[
            Feature, Turn, Length, Mode, MacKey, Rfu, Profile, Right, Size, Memory, Lock, Constant, Challenge, Mac,
            Header, Filler,
        ],
    }
}

pub fn number(check: Check, kind: Option<Kind>) -> u8 {
    match check {
        Draws | Room | Area => 7,
        Empty | Length => 1,
        Size if kind == Some(Kind::Iam3) => 3,
        Method | Feature | Size | Rev | Rfu | Key | Profile | Right | Mode | MacKey => 2,
        Memory => 3,
        Lock => 4,
        Turn => 5,
        Constant | IChallenge | Challenge | Mac | Header | Filler => 6,
    }
}

/// What is lent to the tag with a message, in bytes.
#[derive(Clone)]
pub struct Call {
    pub message: Vec<u8>,
    pub draws: Vec<u8>,
    pub room: usize,
    pub areas: [usize; 2],
}

/// All checks that fail.
pub fn failing(tag: &Tag, call: &Call) -> Vec<Check> {
    let bench = [
        (Draws, call.draws.len() != DRAWS),
        (Room, call.room < ROOM),
        (Area, call.areas != tag.setup.words.map(|words| 2 * words)),
    ];
    let mut all: Vec<Check> = bench
        .into_iter()
        .filter(|(_, fails)| *fails)
        .map(|(check, _)| check)
        .collect();
    match call.message.first().map(|&first| frames::kind_of(first)) {
        None => all.push(Empty),
        Some(None) => all.push(Method),
        Some(Some(kind)) => {
            let sent = Sent::new(tag, kind, &call.message);
            all.extend(of(kind).iter().filter(|&&check| sent.fails(check)));
        }
    }
    all
}

/// A message of a kind, and the record that it is judged with: the one it names, or the one that is held.
pub struct Sent<'a> {
    tag: &'a Tag,
    kind: Kind,
    pub f: Fields,
    message: &'a [u8],
    key: Option<Key>,
}

impl<'a> Sent<'a> {
    pub fn new(tag: &'a Tag, kind: Kind, message: &'a [u8]) -> Sent<'a> {
        let f = frames::fields(kind, message);
        let held = match tag.session {
            Session::IamInit(id, _) | Session::MamInit(id, ..) => Some(id),
            _ => None,
        };
        let id = match kind {
            Kind::Iam2 | Kind::Iam3 | Kind::Mam2 => held,
            _ => Some(f.keyid as u8),
        };
        let key = tag.setup.keys.iter().copied().find(|key| Some(key.id) == id);
        Sent {
            tag,
            kind,
            f,
            message,
            key,
        }
    }

    /// Fields alone, with a record.
    pub fn asking(tag: &'a Tag, kind: Kind, f: Fields, key: Key) -> Sent<'a> {
        Sent {
            tag,
            kind,
            f,
            message: &[],
            key: Some(key),
        }
    }

    /// The words that are asked for, where the profile is there.
    pub fn asked(&self) -> Option<Request> {
        let profile = self.tag.setup.profiles[self.f.profile as usize]?;
        let size = BlockSize {
            bit: self.f.blocksize as usize,
        };
        Some(request(
            &profile,
            size,
            self.f.offset as usize,
            self.f.blockcount as usize + 1,
        ))
    }

    pub fn fails(&self, check: Check) -> bool {
        let (setup, f) = (&self.tag.setup, &self.f);
        match check {
            Feature => !self.tag.has(self.kind),
            Turn => !self.in_turn(),
            Length => !frames::length_fits(Some(self.kind), self.message),
            Size => f.blocksize == 1 && !setup.features[0],
            Rev => !setup.features[1 + f.rev as usize],
            Rfu => f.rfu != 0,
            Key => self.key.is_none(),
            Profile => setup.profiles[f.profile as usize].is_none(),
            Right => self.key.is_some_and(|key| !permits(key.mpi, f.profile as usize)),
            Memory => self.asked().is_some_and(|asked| {
                let profile = setup.profiles[f.profile as usize].expect("it is there");
                !asked.fits(&profile)
            }),
            Mode => f.protmode > 3 || !setup.features[6 + f.protmode as usize],
            MacKey => matches!(f.protmode, 2 | 3) && self.key.is_some_and(|key| !key.mac),
            Lock => self.asked().is_some_and(|asked| asked.locked(&setup.locks)),
            Constant | IChallenge | Challenge => self.first_block_fails(check),
            Mac | Header | Filler => self.data_fail(check),
            Draws | Room | Area | Empty | Method => false,
        }
    }

    fn in_turn(&self) -> bool {
        match self.kind {
            Kind::Tam1 | Kind::Tam2 => true,
            Kind::Iam1 | Kind::Mam1 => matches!(self.tag.session, Session::Initial | Session::IaOk),
            Kind::Iam2 | Kind::Iam3 => matches!(self.tag.session, Session::IamInit(..)),
            Kind::Mam2 => matches!(self.tag.session, Session::MamInit(..)),
        }
    }

    /// Of a message that ends before its first block nothing is said.
    fn first_block_fails(&self, check: Check) -> bool {
        let (Some(key), true) = (self.key, self.message.len() >= frames::layout_bytes(self.kind)) else {
            return false;
        };
        let (tchallenge, ichallenge) = match self.tag.session {
            Session::IamInit(_, tchallenge) => (tchallenge, None),
            Session::MamInit(_, tchallenge, ichallenge) => (tchallenge, Some(ichallenge)),
            _ => return false,
        };
        let plain = encrypt(&key.enc_key, &self.f.iresponse.to_be_bytes());
        let constant = u16::from_be_bytes([plain[0], plain[1]]) >> 4;
        match check {
            Constant => self.f.protmode <= 3 && constant != 0xda8 + self.f.protmode as u16,
            IChallenge => ichallenge.is_some_and(|ichallenge| plain[2..6] != ichallenge),
            _ => plain[6..] != tchallenge,
        }
    }

    /// Of a message of another length nothing is said.
    fn data_fail(&self, check: Check) -> bool {
        let (Some(key), false) = (self.key, self.fails(Length) || self.f.protmode > 3) else {
            return false;
        };
        let f = self.f;
        let end = self.message.len() - frames::mac_bytes(f.protmode as usize);
        let (covered, mac) = (&self.message[4..end], &self.message[end..]);
        let first = self.message[4..20].try_into().expect("a block");
        let data = match f.protmode {
            1 | 3 => cbc_dec_aes(first, &key.enc_key, &covered[16..]),
            _ => covered[16..].to_vec(),
        };
        let head = frames::header_bits(f.blocksize as usize) / 8;
        let filled = head + frames::data_bytes(f.blocksize as usize, f.blockcount as usize);
        match check {
            Mac => !mac.is_empty() && mac != cmac_96(&key.mac_key, covered),
            Header => Some(data[..head].to_vec()) != frames::header(f),
            _ => data[filled..].iter().any(|&byte| byte != 0),
        }
    }
}
