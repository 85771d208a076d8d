//! Annex F as hex digits, and its tag between guards.

use roualint::{Accepted, Reader, Refusal, State, Tag};
use std::ops::Range;

pub const OPENING: &str = "01 3F 0F 02 0009 0000";
pub const RECORDS: &str = "03 00 01 0002 000102030405060708090A0B0C0D0E0F 2B7E151628AED2A6ABF7158809CF4F3C
    03 01 01 0007 0A1B2C3D4E5F6A7B8C9D0E1F2AB3C4D5 889900AABBCCDDEEFFAABBCCDDEEFF00  04 01 00 0000 0009";
pub const MEMORY: &str = "A16A76656E69617A5265676E756D5475756D";
pub const ICHALLENGE: &str = "96564402375796C69664";
pub const RFID: &str = "72666964000000000000";
pub const TCHALLENGE: &str = "9786CAFE01BB65DC2300";
pub const VON_BRAUN: &str = "566F6E20427261756E20";
pub const IRND: &str = "8852BE01";
pub const IAM2: &str = "50 2C79B76E2EF8B47F6DC4E861EA2F3D5E";
pub const GUARD: [u8; 32] = [0xc3; 32];

pub fn hex(digits: &str) -> Vec<u8> {
    let digits: Vec<u8> = digits.chars().filter_map(|c| c.to_digit(16)).map(|d| d as u8).collect();
    digits.chunks(2).map(|pair| pair[0] * 16 + pair[1]).collect()
}

pub fn array<const N: usize>(digits: &str) -> [u8; N] {
    hex(digits).try_into().expect("so many bytes")
}

/// How the text of each number begins.
const TEXTS: [(u8, &str); 15] = [
    (1, "Other Error: "),
    (2, "Not Supported: "),
    (3, "Memory Overrun: "),
    (5, "Out of turn: "),
    (6, "Proof wrong: "),
    (7, "Bench fault: "),
    (8, "Chaining refused: "),
    (20, "Reply length: "),
    (21, "Challenge wrong: "),
    (22, "MAC wrong: "),
    (23, "Header wrong: "),
    (24, "Own message: "),
    (30, "Sheet cut short: "),
    (32, "Kind out of order: "),
    (35, "Bytes follow: "),
];

/// The number of a refusal, whose text is that number's.
pub fn number<T>(result: Result<T, Refusal>) -> Option<u8> {
    let refusal = result.err()?;
    let (number, text) = (refusal.number(), refusal.text());
    let begins = TEXTS
        .iter()
        .find(|entry| entry.0 == number)
        .expect("a number that is tested")
        .1;
    assert!(
        text.starts_with(begins) && refusal.to_string() == format!("{number} {text}"),
        "{refusal}"
    );
    Some(number)
}

pub fn annex_f_sheet() -> Vec<u8> {
    hex(&[OPENING, RECORDS, "06"].concat())
}

/// The reader that has the keys of record 0 or 1.
pub fn reader(record: usize) -> Reader {
    let record = &annex_f_sheet()[8 + 37 * record..][..37];
    Reader::new(
        record[5..21].try_into().expect("a key"),
        Some(record[21..].try_into().expect("a key")),
    )
}

/// Bytes between guards.
struct Area(Vec<u8>);

impl Area {
    fn new(bytes: &[u8]) -> Area {
        Area([&GUARD, bytes, &GUARD].concat())
    }

    fn range(&self) -> Range<usize> {
        GUARD.len()..self.0.len() - GUARD.len()
    }

    fn bytes(&self) -> &[u8] {
        &self.0[self.range()]
    }

    fn lent(&mut self) -> &mut [u8] {
        let range = self.range();
        &mut self.0[range]
    }

    fn intact(&self) {
        assert!(
            self.0.starts_with(&GUARD) && self.0.ends_with(&GUARD),
            "around the area nothing is written"
        );
    }
}

/// A tag between guards, with its areas between guards.
#[repr(C)]
pub struct Bench {
    before: [u8; 32],
    pub tag: Tag,
    behind: [u8; 32],
    identity: Area,
    user: Area,
}

impl Bench {
    pub fn new(sheet: &[u8], identity: &[u8], user: &[u8]) -> Bench {
        Bench {
            before: GUARD,
            tag: Tag::new(sheet).expect("the sheet is accepted"),
            behind: GUARD,
            identity: Area::new(identity),
            user: Area::new(user),
        }
    }

    pub fn annex_f() -> Bench {
        Bench::new(&annex_f_sheet(), &hex(MEMORY), &[])
    }

    pub fn send(&mut self, message: &[u8], draws: &str) -> Result<Accepted, Refusal> {
        let answer = self
            .tag
            .message(message, &hex(draws), self.identity.lent(), self.user.lent());
        assert_eq!(
            (self.before, self.behind),
            (GUARD, GUARD),
            "around the tag nothing is written"
        );
        self.identity.intact();
        self.user.intact();
        answer
    }

    pub fn holds(&self, identity: &[u8], user: &[u8]) {
        assert_eq!(self.identity.bytes(), identity, "area 0");
        assert_eq!(self.user.bytes(), user, "area 1");
    }

    /// Accepted, with this reply and this Purpose, in this state.
    fn takes(&mut self, message: &[u8], draws: &str, reply: &str, purpose: Option<u8>, state: State) -> Accepted {
        let accepted = self.send(message, draws).expect("accepted");
        assert_eq!(*accepted.reply, hex(reply), "the reply");
        assert_eq!(accepted.purpose, purpose, "the Purpose");
        assert_eq!(self.tag.state(), state, "the state");
        accepted
    }

    /// Accepted, with this reply, in this state, and no reader is let in.
    pub fn answers(&mut self, message: &[u8], draws: &str, reply: &str, state: State) -> Accepted {
        self.takes(message, draws, reply, None, state)
    }

    /// Accepted: the reader is let in, with this Purpose and an empty reply.
    pub fn lets_in(&mut self, message: &[u8], purpose: u8) -> Accepted {
        self.takes(message, RFID, "", Some(purpose), State::IaOk)
    }

    /// Refused by this number: the tag is in Initial and holds nothing, and no byte of an area has changed.
    pub fn refuses(&mut self, message: &str, refusal: u8) {
        let (identity, user) = (self.identity.bytes().to_vec(), self.user.bytes().to_vec());
        assert_eq!(
            number(self.send(&hex(message), &"00".repeat(10))),
            Some(refusal),
            "{message}"
        );
        assert_eq!(self.tag.as_bytes()[..16], [0; 16], "a refusal ends in Initial");
        self.holds(&identity, &user);
    }
}
