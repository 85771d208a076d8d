//! A chaining or MAC call as a caller sees it: data in, a room lent for what comes out, a number back.
//!
//! House rule: a length that is no whole number of blocks (for the MAC also none), or room for less than is
//! returned, gives 8 and leaves the room as it was. Else 0, and only the room's first bytes are written.

use super::aes::Block;
use super::{chaining, cmac};

#[derive(Clone, Copy, PartialEq)]
pub enum Function {
    CbcEncAes,
    CbcDecAes,
    CbcDecAesInv,
    CbcEncAesInv,
    Cmac96,
}

pub const DONE: u8 = 0;
pub const REFUSED: u8 = 8;

impl Function {
    /// How many bytes come back for data of this length.
    pub fn needed(self, length: usize) -> usize {
        if self == Function::Cmac96 {
            12
        } else {
            length
        }
    }

    /// The MAC takes no IV.
    pub fn call(self, iv: &Block, key: &Block, data: &[u8], room: &mut [u8]) -> u8 {
        let needed = self.needed(data.len());
        let empty_for_the_mac = self == Function::Cmac96 && data.is_empty();
        if data.len() % 16 != 0 || empty_for_the_mac || room.len() < needed {
            return REFUSED;
        }
        let output = match self {
            Function::CbcEncAes => chaining::cbc_enc_aes(iv, key, data),
            Function::CbcDecAes => chaining::cbc_dec_aes(iv, key, data),
            Function::CbcDecAesInv => chaining::cbc_dec_aes_inv(iv, key, data),
            Function::CbcEncAesInv => chaining::cbc_enc_aes_inv(iv, key, data),
            Function::Cmac96 => cmac::cmac_96(key, data),
        };
        room[..needed].copy_from_slice(&output);
        DONE
    }
}
