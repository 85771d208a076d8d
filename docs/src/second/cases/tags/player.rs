//! A reader at play with a drawn tag: which message comes next, what is to be wrong with it, and what came of it.

use super::block;
use super::checks::{self, Check, BENCH};
use super::proof::Open;
use super::tally;
use crate::cases::draws::Draws;
use crate::cases::forger::Forger;
use crate::cases::script::Script;
use crate::hex::number;
use crate::standard::frames::{self, Fields, Kind};
use crate::standard::messages;
use crate::standard::session::Session;
use crate::standard::sheet::Key;
use crate::standard::tag::Tag;

pub struct Player<'a> {
    pub script: &'a mut Script,
    pub draws: &'a mut Draws,
    open: Option<Open>,
    pub sent: usize,
}

/// Kinds in which much can be wrong come more often.
const OFTEN: [Kind; 16] = [
    Kind::Tam1,
    Kind::Tam2,
    Kind::Tam2,
    Kind::Tam2,
    Kind::Tam2,
    Kind::Iam1,
    Kind::Mam1,
    Kind::Iam2,
    Kind::Mam2,
    Kind::Mam2,
    Kind::Iam3,
    Kind::Iam3,
    Kind::Iam3,
    Kind::Iam3,
    Kind::Iam3,
    Kind::Iam3,
];

/// What has many places in an IAM3.
const IN_THE_PROOF: [Check; 8] = [
    Check::Lock,
    Check::Constant,
    Check::Constant,
    Check::Mac,
    Check::Mac,
    Check::Header,
    Check::Filler,
    Check::Filler,
];

impl<'a> Player<'a> {
    pub fn new(script: &'a mut Script, draws: &'a mut Draws) -> Player<'a> {
        Player {
            script,
            draws,
            open: None,
            sent: 0,
        }
    }

    pub fn tag(&self) -> &Tag {
        self.script.console.tag.as_ref().expect("a tag")
    }

    /// One message, those that lead up to it, and those that show what it left.
    pub fn turn(&mut self) {
        let kind = self.draws.one_of(&OFTEN);
        let wrong = self.wrong(kind);
        self.lead_up(kind, &wrong);
        let (held, before) = (self.open, self.tag().session);
        let (what, given) = match self.draws.below(64) {
            0 => ("any bytes".to_string(), self.any_bytes()),
            1 => ("no byte".to_string(), self.call(Vec::new(), &wrong, &[])),
            2 | 3 => {
                self.script.expect("power", "ok");
                ("power".to_string(), 0)
            }
            _ => (format!("{kind:?}"), self.send(kind, &wrong)),
        };
        let (Session::IamInit(..) | Session::MamInit(..)) = before else {
            return;
        };
        // Whatever came of it: does the challenge still hold?
        if let (Some(open), true) = (held, self.draws.once_in(2)) {
            self.open = Some(open);
            let second = match before {
                Session::MamInit(..) => Kind::Mam2,
                _ => self.draws.one_of(&[Kind::Iam2, Kind::Iam3]),
            };
            self.send(second, &[]);
            tally::survival(self.script, before.name(), &what, given);
        }
    }

    /// Nothing, one thing or two, of what this tag can show.
    fn wrong(&mut self, kind: Kind) -> Vec<Check> {
        let can: Vec<Check> = checks::of(kind)
            .iter()
            .copied()
            .filter(|&check| self.shows(check))
            .collect();
        let count = self.draws.one_of(if kind == Kind::Tam2 {
            &[0, 0, 0, 1, 2, 2]
        } else {
            &[0, 0, 1, 1, 2, 2]
        });
        let mut wrong: Vec<Check> = (0..count).map(|_| self.draws.one_of(&can)).collect();
        if kind == Kind::Iam3 && count == 1 && self.draws.once_in(2) {
            wrong = vec![self.draws.one_of(&IN_THE_PROOF)];
        }
        // Locks far behind are on few tags.
        if kind == Kind::Iam3 && self.tag().setup.words.iter().any(|&words| words > 255) && self.draws.once_in(2) {
            wrong = vec![Check::Lock];
        }
        if self.draws.once_in(if count == 0 { 12 } else { 6 }) {
            wrong.insert(0, self.draws.one_of(&BENCH));
        }
        wrong
    }

    fn shows(&self, check: Check) -> bool {
        let setup = &self.tag().setup;
        match check {
            Check::Feature => false,
            Check::Size => !setup.features[0],
            Check::Rev => !setup.features[1] || !setup.features[2],
            Check::Profile => setup.profiles.iter().any(|profile| profile.is_none()),
            Check::MacKey => setup.keys.iter().any(|key| !key.mac),
            Check::Lock => !setup.locks.is_empty(),
            _ => true,
        }
    }

    /// Brings the tag into a state that takes the kind, or takes it not.
    fn lead_up(&mut self, kind: Kind, wrong: &[Check]) {
        let states: &[&str] = match (kind, wrong.contains(&Check::Turn)) {
            (Kind::Tam1 | Kind::Tam2, _) => &["Initial", "IAM-Init", "MAM-Init", "IA-OK"],
            (Kind::Iam1 | Kind::Mam1, false) => &["Initial", "IA-OK"],
            (Kind::Iam1 | Kind::Mam1, true) => &["IAM-Init", "MAM-Init"],
            (Kind::Iam2 | Kind::Iam3, false) => &["IAM-Init"],
            (Kind::Iam2 | Kind::Iam3, true) => &["Initial", "MAM-Init", "IA-OK"],
            (Kind::Mam2, false) => &["MAM-Init"],
            (Kind::Mam2, true) => &["Initial", "IAM-Init", "IA-OK"],
        };
        if states.len() == 4 && self.draws.once_in(2) {
            return;
        }
        let state = self.draws.one_of(states);
        let unfit = self
            .open
            .is_some_and(|open| open.key.mac == wrong.contains(&Check::MacKey));
        if self.tag().session.name() != state || unfit {
            self.reach(state, wrong);
        }
    }

    /// By right messages, as far as the tag takes them.
    fn reach(&mut self, state: &str, wrong: &[Check]) {
        if let ("Initial", _) | (_, Session::IamInit(..) | Session::MamInit(..)) = (state, self.tag().session) {
            match self.draws.below(3) {
                0 => drop(self.send(Kind::Tam1, &[])),
                _ => self.script.expect("power", "ok"),
            }
        }
        // The record that the message is judged with is named here.
        let named: Vec<Check> = wrong.iter().copied().filter(|&check| check == Check::MacKey).collect();
        match state {
            "IAM-Init" => drop(self.send(Kind::Iam1, &named)),
            "MAM-Init" => drop(self.send(Kind::Mam1, &named)),
            "IA-OK" => {
                let (first, second) = self.draws.one_of(&[(Kind::Iam1, Kind::Iam2), (Kind::Mam1, Kind::Mam2)]);
                self.send(first, &[]);
                self.send(second, &[]);
            }
            _ => {}
        }
    }

    fn any_bytes(&mut self) -> u8 {
        let length = 1 + self.draws.below(40);
        let mut message = self.draws.bytes(length);
        if self.draws.once_in(2) {
            message[0] = self.draws.one_of(&[0x60, 0x70, 0xa0, 0xb0, 0xc0, 0xd0, 0xe0, 0xf0]) | message[0] & 15;
        }
        self.call(message, &[], &[])
    }

    /// A message that is right but for what is to fail.
    fn send(&mut self, kind: Kind, wrong: &[Check]) -> u8 {
        let named = self.record(wrong);
        let open = self.open.unwrap_or(Open {
            key: named,
            tchallenge: [0; 10],
            ichallenge: [0; 10],
            old: [0; 10],
        });
        let proves = matches!(kind, Kind::Iam2 | Kind::Iam3 | Kind::Mam2);
        let key = if proves { open.key } else { named };
        let mut f = match (kind, &self.script.console.tag) {
            (Kind::Tam2 | Kind::Iam3, Some(tag)) => block::drawn(self.draws, tag, kind, &key, wrong),
            _ => Fields::default(),
        };
        let ichallenge = self.draws.array();
        (f.keyid, f.ichallenge) = (u128::from(key.id), number(&ichallenge));
        if wrong.contains(&Check::Key) {
            f.keyid = u128::from(self.absent(key.id));
        }
        let mut forger = Forger {
            draws: self.draws,
            script: self.script,
            failing: wrong,
            hit: Vec::new(),
        };
        let mut message = match proves {
            true => forger.message(kind, &open, f),
            false => messages::asking(kind, f),
        };
        let hit = forger.hit;
        self.damage(&mut message, kind, wrong);
        let given = self.call(message, wrong, &hit);
        if let (Session::IamInit(_, tchallenge) | Session::MamInit(_, tchallenge, _), 0) = (self.tag().session, given) {
            self.open = Some(Open {
                key,
                tchallenge,
                ichallenge,
                old: open.tchallenge,
            });
        }
        given
    }

    /// A record with a MAC key, or without one where that is what is wrong; one that is not there where there is none.
    fn record(&mut self, wrong: &[Check]) -> Key {
        let keys = self.tag().setup.keys.clone();
        let fit: Vec<Key> = keys
            .iter()
            .copied()
            .filter(|key| key.mac != wrong.contains(&Check::MacKey))
            .collect();
        let among = if fit.is_empty() || self.draws.once_in(8) {
            keys
        } else {
            fit
        };
        match among.is_empty() {
            false => self.draws.one_of(&among),
            true => Key {
                id: self.draws.byte(),
                mac: true,
                mpi: 0xffff,
                enc_key: [1; 16],
                mac_key: [2; 16],
            },
        }
    }

    /// The KeyID of no record: a present one with another bit, 0 where it is free, or any.
    fn absent(&mut self, keyid: u8) -> u8 {
        let known: Vec<u8> = self.tag().setup.keys.iter().map(|key| key.id).collect();
        let near = [
            keyid ^ 1 << self.draws.below(8),
            keyid.wrapping_add(1),
            0,
            self.draws.byte(),
        ];
        let first = self.draws.one_of(&near);
        (0..=255)
            .map(|more| first.wrapping_add(more))
            .find(|id| !known.contains(id))
            .expect("few records")
    }

    /// An RFU bit; one byte more or less, a cut anywhere, a block or a MAC more or less.
    fn damage(&mut self, message: &mut Vec<u8>, kind: Kind, wrong: &[Check]) {
        if wrong.contains(&Check::Rfu) {
            let mask = frames::rfu_mask(kind);
            let bits: Vec<u8> = (0..8).map(|bit| 1 << bit).filter(|bit| mask & bit != 0).collect();
            message[0] |= self.draws.one_of(&bits);
        }
        if wrong.contains(&Check::Length) {
            let length = message.len();
            let by = self.draws.one_of(&[12, 16]);
            match self.draws.below(8) {
                0..=2 => message.push(self.draws.byte()),
                3 | 4 => drop(message.pop()),
                5 => message.truncate(1 + self.draws.below(length - 1)),
                6 => message.truncate(length.saturating_sub(by).max(1)),
                _ => message.extend(self.draws.bytes(by)),
            }
        }
    }
}
