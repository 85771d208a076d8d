//! The tag sheet of paper 01: its records, their rules, and what a sheet is refused for.

use super::memory::{Area, Lock, Profile};

#[derive(Clone, Copy)]
pub struct Key {
    pub id: u8,
    pub mac: bool,
    pub mpi: u16,
    pub enc_key: [u8; 16],
    pub mac_key: [u8; 16],
}

#[derive(Default)]
pub struct Setup {
    /// BlockSize 1, Rev 0, Rev 1, IAM1 and IAM2, IAM3, MAM; then ProtModes 0 to 3.
    pub features: [bool; 10],
    /// The words of the two areas.
    pub words: [usize; 2],
    pub keys: Vec<Key>,
    /// By number.
    pub profiles: [Option<Profile>; 16],
    pub locks: Vec<Lock>,
}

#[derive(PartialEq, Debug)]
pub struct Refusal {
    pub number: u8,
    pub place: usize,
}

/// The kinds, with the length of each body.
pub const BODIES: [(u8, usize); 6] = [(1, 2), (2, 4), (3, 36), (4, 6), (5, 5), (6, 0)];

const END: u8 = 6;
pub const MOST_OF_A_KIND: usize = 16;
const MOST_WORDS: usize = 1024;

/// The whole sheet. For each record the refusals are tried in the paper's order: 31, 32, 34, 30, 33; after the end, 35.
pub fn read(sheet: &[u8]) -> Result<Setup, Refusal> {
    let mut setup = Setup::default();
    let mut kinds: Vec<u8> = Vec::new();
    let mut place = 0;
    loop {
        let refused = |number| Err(Refusal { number, place });
        let Some(&kind) = sheet.get(place) else {
            return refused(30);
        };
        let Some(&(_, length)) = BODIES.iter().find(|(k, _)| *k == kind) else {
            return refused(31);
        };
        if !in_order(&kinds, kind) {
            return refused(32);
        }
        if kinds.iter().filter(|k| **k == kind).count() == MOST_OF_A_KIND {
            return refused(34);
        }
        let Some(body) = sheet.get(place + 1..place + 1 + length) else {
            return refused(30);
        };
        if kind == END {
            return match sheet.len() - (place + 1) {
                0 => Ok(setup),
                _ => Err(Refusal {
                    number: 35,
                    place: place + 1,
                }),
            };
        }
        if !take(&mut setup, kind, body) {
            return refused(33);
        }
        kinds.push(kind);
        place += 1 + length;
    }
}

/// 01 is first and 02 second, each once; after them a kind is never below the one before.
pub fn in_order(before: &[u8], kind: u8) -> bool {
    match before {
        [] => kind == 1,
        [_] => kind == 2,
        [.., last] => kind != 1 && kind != 2 && *last <= kind,
    }
}

/// Puts a record into the setup, where its values keep their rules.
pub fn take(setup: &mut Setup, kind: u8, body: &[u8]) -> bool {
    match kind {
        1 => features(setup, body),
        2 => sizes(setup, body),
        3 => key(setup, body),
        4 => profile(setup, body),
        5 => lock(setup, body),
        _ => false,
    }
}

fn features(setup: &mut Setup, body: &[u8]) -> bool {
    let bit = |byte: u8, i: usize| byte >> i & 1 == 1;
    for i in 0..6 {
        setup.features[i] = bit(body[0], i);
    }
    for i in 0..4 {
        setup.features[6 + i] = bit(body[1], i);
    }
    let others_zero = body[0] & !0x3f == 0 && body[1] & !0x0f == 0;
    let (iam, iam3) = (setup.features[3], setup.features[4]);
    others_zero && (iam || !iam3)
}

fn sizes(setup: &mut Setup, body: &[u8]) -> bool {
    setup.words = [word(body, 0), word(body, 2)];
    setup.words.iter().all(|words| *words <= MOST_WORDS)
}

fn key(setup: &mut Setup, body: &[u8]) -> bool {
    let key = Key {
        id: body[0],
        mac: body[1] == 1,
        mpi: word(body, 2) as u16,
        enc_key: body[4..20].try_into().unwrap(),
        mac_key: body[20..36].try_into().unwrap(),
    };
    let rises = setup.keys.last().is_none_or(|last| last.id < key.id);
    let known = body[1] == 0 || body[1] == 1;
    let zeros_if_absent = key.mac || key.mac_key == [0; 16];
    setup.keys.push(key);
    rises && known && zeros_if_absent
}

fn profile(setup: &mut Setup, body: &[u8]) -> bool {
    let number = usize::from(body[0]);
    let Some(area) = Area::of(usize::from(body[1])) else {
        return false;
    };
    let profile = Profile {
        area,
        base: word(body, 2),
        words: word(body, 4),
    };
    let rises = number < 16 && setup.profiles[number..].iter().all(|later| later.is_none());
    if !rises || !inside(setup, area, profile.base, profile.words) {
        return false;
    }
    setup.profiles[number] = Some(profile);
    true
}

fn lock(setup: &mut Setup, body: &[u8]) -> bool {
    let Some(area) = Area::of(usize::from(body[0])) else {
        return false;
    };
    let lock = Lock {
        area,
        first: word(body, 1),
        words: word(body, 3),
    };
    let follows = setup.locks.last().is_none_or(|last| {
        let (was, is) = (last.area.number(), area.number());
        was < is || was == is && last.first + last.words <= lock.first
    });
    if !follows || !inside(setup, area, lock.first, lock.words) {
        return false;
    }
    setup.locks.push(lock);
    true
}

/// At least one word, and all of them in the area.
fn inside(setup: &Setup, area: Area, first: usize, words: usize) -> bool {
    words >= 1 && first + words <= setup.words[usize::from(area.number())]
}

fn word(body: &[u8], at: usize) -> usize {
    usize::from(u16::from_be_bytes([body[at], body[at + 1]]))
}
