//! IAM2, IAM3 and MAM2 for a challenge, right but for what is to fail in them; and where that hits.

use super::checks::Check;
use crate::cases::forger::Forger;
use crate::standard::aes::{encrypt, Block};
use crate::standard::chaining::cbc_enc_aes;
use crate::standard::cmac::cmac_96;
use crate::standard::frames::{self, Fields, Kind};
use crate::standard::messages;
use crate::standard::sheet::Key;

/// What the reader has got from the last IAM1 or MAM1 that was accepted, and the challenge before that.
#[derive(Clone, Copy)]
pub struct Open {
    pub key: Key,
    pub tchallenge: [u8; 10],
    pub ichallenge: [u8; 10],
    pub old: [u8; 10],
}

impl Forger<'_, Check> {
    pub fn message(&mut self, kind: Kind, open: &Open, f: Fields) -> Vec<u8> {
        let first = self.first_block(kind, open, f);
        match kind {
            Kind::Iam3 => self.writing(open, f, &first),
            _ => messages::proving(kind, &open.key, &first),
        }
    }

    /// The plain of the first block. Where both constant and challenge are to fail, often a stranger made it, or
    /// AES-ENC.
    fn first_block(&mut self, kind: Kind, open: &Open, f: Fields) -> Block {
        let mode = if kind == Kind::Iam3 { f.protmode as u16 % 4 } else { 0 };
        let mut constant = 0xda8 + mode;
        if self.has(Check::Constant) {
            let bits = (0..12).map(|bit| constant ^ 1 << bit);
            let others: Vec<u16> = bits.chain(0xda8..=0xdab).filter(|&other| other != constant).collect();
            let name = |other: &u16| format!("{kind:?} constant {other:03x} in ProtMode {mode}");
            constant = others[self.place(others.iter().map(name).collect())];
        }
        let mut middle = match kind {
            Kind::Mam2 => open.ichallenge[6..].try_into().expect("4 bytes"),
            _ => self.draws.array::<4>(),
        };
        if self.has(Check::IChallenge) {
            self.damage(&format!("{kind:?} IChallenge byte @"), &mut middle);
        }
        let mut tchallenge = open.tchallenge;
        if self.has(Check::Challenge) && self.draws.once_in(4) {
            tchallenge = open.old;
        } else if self.has(Check::Challenge) {
            self.damage(&format!("{kind:?} TChallenge byte @"), &mut tchallenge);
        }
        let start = (constant << 4 | u16::from(self.draws.byte() % 16)).to_be_bytes();
        let plain: Block = [&start[..], &middle, &tchallenge]
            .concat()
            .try_into()
            .expect("16 bytes");
        let mut stranger = open.key.enc_key;
        let at = self.draws.below(16);
        self.draws.flip(&mut stranger[at]);
        let both = self.has(Check::Constant) && self.has(Check::Challenge);
        match self.draws.below(3) {
            // The message is made by AES-DEC, so that what the tag opens is then this.
            0 if both => encrypt(&open.key.enc_key, &encrypt(&open.key.enc_key, &plain)),
            1 if both => encrypt(&stranger, &plain),
            _ => plain,
        }
    }

    fn writing(&mut self, open: &Open, f: Fields, first: &Block) -> Vec<u8> {
        let (size, mode) = (f.blocksize as usize, f.protmode);
        let head = frames::header_bits(size) / 8;
        let length = frames::data_bytes(size, f.blockcount as usize);
        let mut payload = messages::payload(f, &self.draws.bytes(length));
        let name = |what: &str| format!("{what} byte @ of BlockSize {size} in ProtMode {mode}");
        if self.has(Check::Header) {
            self.damage(&name("header"), &mut payload[..head]);
        }
        if self.has(Check::Filler) {
            self.damage(&name("filler"), &mut payload[head + length..]);
        }
        let mut message = messages::writing(&open.key, f, first, &payload);
        let end = message.len() - frames::mac_bytes(mode as usize);
        if self.has(Check::Mac) {
            match self.draws.below(6) {
                // A word that the MAC covers, or a MAC over the data before chaining.
                0 => {
                    let at = 20 + head + self.draws.below(length);
                    self.draws.flip(&mut message[at]);
                }
                1 if mode == 3 => {
                    let mac = cmac_96(&open.key.mac_key, &[&message[4..20], &payload[..]].concat());
                    message.splice(end.., mac);
                }
                _ => self.damage(&name("MAC"), &mut message[end..]),
            }
        } else if self.has(Check::Header) && mode % 2 == 1 && self.draws.once_in(4) {
            // The other chaining, under a right MAC.
            self.hit.clear();
            let iv = message[4..20].try_into().expect("a block");
            message.splice(20..end, cbc_enc_aes(&iv, &open.key.enc_key, &payload));
            if mode == 3 {
                let mac = cmac_96(&open.key.mac_key, &message[4..end]);
                message.splice(end.., mac);
            }
        }
        message
    }
}
