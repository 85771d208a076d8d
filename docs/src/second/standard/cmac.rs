//! CMAC of SP 800-38B with AES-128, for messages of any whole number of bytes: MAC method 5 of ISO/IEC 9797-1.

use super::aes::{encrypt, Block};
use super::chaining::xor;

/// The first 12 bytes of the CMAC: CMAC-96.
pub fn cmac_96(key: &Block, message: &[u8]) -> Vec<u8> {
    cmac(key, message)[..12].to_vec()
}

/// The whole tag T (SP 800-38B, 6.2). The last block is whole, or filled by a one bit and zeros; so is the empty
/// message.
pub fn cmac(key: &Block, message: &[u8]) -> Block {
    let (first, second) = subkeys(key);
    let blocks = message.len().div_ceil(16).max(1);
    let (front, rest) = message.split_at(16 * (blocks - 1));
    let mut last = [0; 16];
    last[..rest.len()].copy_from_slice(rest);
    if rest.len() < 16 {
        last[rest.len()] = 0x80;
        last = xor(&last, &second);
    } else {
        last = xor(&last, &first);
    }
    let mut chain = [0; 16];
    for input in front.chunks(16).chain([&last[..]]) {
        chain = encrypt(key, &std::array::from_fn(|i| chain[i] ^ input[i]));
    }
    chain
}

/// K1 and K2 (SP 800-38B, 6.1).
pub fn subkeys(key: &Block) -> (Block, Block) {
    let first = doubled(encrypt(key, &[0; 16]));
    (first, doubled(first))
}

/// One bit to the left, and the constant R128 = 87 where a one fell out (SP 800-38B, 5.3 and 6.1).
fn doubled(block: Block) -> Block {
    let shifted = u128::from_be_bytes(block) << 1;
    let constant = if block[0] & 0x80 == 0 { 0 } else { 0x87 };
    (shifted ^ constant).to_be_bytes()
}
