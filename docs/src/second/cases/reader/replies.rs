//! Replies as a tag makes them, right but for what is to fail in them; and where that hits.

use super::checks::Check;
use crate::cases::forger::Forger;
use crate::standard::aes::encrypt;
use crate::standard::chaining::{cbc_enc_aes, cbc_enc_aes_inv};
use crate::standard::cmac::cmac_96;
use crate::standard::frames::{self, Fields, Kind, CONSTANTS};
use crate::standard::judge::constant_name;
use crate::standard::sheet::Key;

impl Forger<'_, Check> {
    /// The reply to a message of these fields.
    pub fn reply(&mut self, key: &Key, kind: Kind, f: Fields) -> Vec<u8> {
        match kind {
            Kind::Tam1 => self.first_block(key, "C_TAM1", f, kind).to_vec(),
            Kind::Tam2 => self.with_data(key, f),
            Kind::Iam1 => self.draws.bytes(10),
            Kind::Mam1 => {
                let block = self.first_block(key, "C_MAM1", f, kind);
                [&block[..], &self.draws.bytes(6)].concat()
            }
            Kind::Iam2 | Kind::Iam3 | Kind::Mam2 => Vec::new(),
        }
    }

    /// A constant, 32 bits of the tag's, and IChallenge.
    fn first_block(&mut self, key: &Key, name: &str, f: Fields, kind: Kind) -> [u8; 16] {
        let mut constant = frames::constant(name);
        if self.has(Check::Constant) {
            let others = others(constant);
            let name = |other: &u16| format!("{kind:?} constant {other:04x} for {constant:04x}");
            constant = others[self.place(others.iter().map(name).collect())];
        }
        let mut challenge: [u8; 10] = f.ichallenge.to_be_bytes()[6..].try_into().expect("10 bytes");
        if self.has(Check::Challenge) {
            self.damage(&format!("{kind:?} IChallenge byte @"), &mut challenge);
        }
        let plain = [&constant.to_be_bytes()[..], &self.draws.bytes(4), &challenge].concat();
        let mut enc_key = key.enc_key;
        if self.has(Check::Constant) && self.has(Check::Challenge) && self.draws.once_in(2) {
            let at = self.draws.below(16);
            self.draws.flip(&mut enc_key[at]);
        }
        encrypt(&enc_key, &plain.try_into().expect("16 bytes"))
    }

    fn with_data(&mut self, key: &Key, f: Fields) -> Vec<u8> {
        let first = self.first_block(key, &constant_name(f), f, Kind::Tam2);
        let (size, rev, mode) = (f.blocksize as usize, f.rev, f.protmode);
        let name = |what: &str| format!("{what} byte @ of BlockSize {size} in Rev {rev}, ProtMode {mode}");
        let mut payload = if rev == 1 {
            frames::header(f).expect("fields in their range")
        } else {
            Vec::new()
        };
        let head = payload.len();
        payload.extend(self.draws.bytes(frames::data_bytes(size, f.blockcount as usize)));
        let filled = payload.len();
        payload.resize(16 * frames::d(size, rev == 1, f.blockcount as usize), 0);
        if self.has(Check::Header) {
            self.damage(&name("header"), &mut payload[..head]);
        }
        if self.has(Check::Filler) {
            self.damage(&name("filler"), &mut payload[filled..]);
        }
        let chained = mode % 2 == 1;
        let mut data = match chained {
            // CBC_ENC_AES_INV for CBC_ENC_AES.
            true if self.has(Check::Header) && self.draws.once_in(4) => {
                self.hit.clear();
                cbc_enc_aes_inv(&first, &key.enc_key, &payload)
            }
            true => cbc_enc_aes(&first, &key.enc_key, &payload),
            false => payload.clone(),
        };
        if mode < 2 {
            return [&first[..], &data].concat();
        }
        let mut mac_key = key.mac_key;
        let mut covered = data.clone();
        let how = if self.has(Check::Mac) { self.draws.below(8) } else { 8 };
        match how {
            // Of another key, over the data before chaining, over data that were then changed.
            0 => {
                let at = self.draws.below(16);
                self.draws.flip(&mut mac_key[at]);
            }
            1 if chained => covered = payload,
            1 | 2 => {
                let at = head + self.draws.below(filled - head);
                self.draws.flip(&mut data[at]);
            }
            _ => {}
        }
        let mut mac = cmac_96(&mac_key, &[&first[..], &covered].concat());
        if (3..8).contains(&how) {
            self.damage(&name("MAC"), &mut mac);
        }
        [&first[..], &data, &mac].concat()
    }
}

/// All other constants of 16 bits, and the right one with a bit changed.
pub fn others(right: u16) -> Vec<u16> {
    let bits = (0..16).map(|bit| right ^ 1 << bit);
    let wide = CONSTANTS
        .iter()
        .filter(|(_, _, width)| *width == 16)
        .map(|(_, value, _)| *value);
    let mut others: Vec<u16> = bits.chain(wide).filter(|&other| other != right).collect();
    others.sort();
    others.dedup();
    others
}
