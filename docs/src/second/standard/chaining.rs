//! The four chaining forms of ISO/IEC 29167-10, 3.1.8 to 3.1.11, over a whole number of blocks.
//!
//! SP 800-38A, 6.2, has the first two; the other two exchange the cipher's ways.

use super::aes::{decrypt, encrypt, Block};

type Way = fn(&Block, &Block) -> Block;

/// CBC_ENC_AES (3.1.8).
pub fn cbc_enc_aes(iv: &Block, key: &Block, data: &[u8]) -> Vec<u8> {
    chained(encrypt, iv, key, data)
}

/// CBC_DEC_AES_INV (3.1.9).
pub fn cbc_dec_aes_inv(iv: &Block, key: &Block, data: &[u8]) -> Vec<u8> {
    unchained(decrypt, iv, key, data)
}

/// CBC_ENC_AES_INV (3.1.10).
pub fn cbc_enc_aes_inv(iv: &Block, key: &Block, data: &[u8]) -> Vec<u8> {
    chained(decrypt, iv, key, data)
}

/// CBC_DEC_AES (3.1.11).
pub fn cbc_dec_aes(iv: &Block, key: &Block, data: &[u8]) -> Vec<u8> {
    unchained(encrypt, iv, key, data)
}

/// O1 = way(key, I1 xor IV), On = way(key, In xor O(n-1)).
fn chained(way: Way, iv: &Block, key: &Block, data: &[u8]) -> Vec<u8> {
    let mut before = *iv;
    let mut output = Vec::new();
    for input in data.chunks(16) {
        before = way(key, &xor(&block(input), &before));
        output.extend(before);
    }
    output
}

/// O1 = way(key, I1) xor IV, On = way(key, In) xor I(n-1).
fn unchained(way: Way, iv: &Block, key: &Block, data: &[u8]) -> Vec<u8> {
    let mut before = *iv;
    let mut output = Vec::new();
    for input in data.chunks(16) {
        output.extend(xor(&way(key, &block(input)), &before));
        before = block(input);
    }
    output
}

pub fn xor(a: &Block, b: &Block) -> Block {
    std::array::from_fn(|i| a[i] ^ b[i])
}

fn block(bytes: &[u8]) -> Block {
    bytes.try_into().expect("a whole number of blocks")
}
