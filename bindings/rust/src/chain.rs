//! The cipher, its four forms of chaining, and the MAC, over inputs of any length: the stack that they use does not
//! grow with the input.

use crate::ffi;
use crate::refusal::Refusal;

/// Sixteen bytes: a block, a key or an IV.
pub type Block = [u8; 16];

/// AES-ENC.
pub fn aes_enc(key: &Block, block: &Block) -> Block {
    let mut output = *block;
    // The key is only read, and the block is a place of its own.
    unsafe { ffi::roualint_aes_enc(key, &mut output) };
    output
}

/// AES-DEC.
pub fn aes_dec(key: &Block, block: &Block) -> Block {
    let mut output = *block;
    // The key is only read, and the block is a place of its own.
    unsafe { ffi::roualint_aes_dec(key, &mut output) };
    output
}

/// CBC_ENC_AES (3.1.8) into the room's first bytes, as many as the input has. Number 8, and the room as it was, where
/// the input is no whole number of blocks or the room is shorter.
pub fn cbc_enc_aes(iv: &Block, key: &Block, input: &[u8], room: &mut [u8]) -> Result<(), Refusal> {
    // Slices have the bytes they say, and the room is borrowed for writing.
    Refusal::check(unsafe {
        ffi::roualint_cbc_enc_aes(iv, key, input.as_ptr(), input.len(), room.as_mut_ptr(), room.len())
    })
}

/// CBC_DEC_AES (3.1.11), by AES-ENC; refused as [`cbc_enc_aes`] is.
pub fn cbc_dec_aes(iv: &Block, key: &Block, input: &[u8], room: &mut [u8]) -> Result<(), Refusal> {
    // As above.
    Refusal::check(unsafe {
        ffi::roualint_cbc_dec_aes(iv, key, input.as_ptr(), input.len(), room.as_mut_ptr(), room.len())
    })
}

/// CBC_ENC_AES_INV (3.1.10), by AES-DEC; refused as [`cbc_enc_aes`] is. [`cbc_dec_aes`] undoes it.
pub fn cbc_enc_aes_inv(iv: &Block, key: &Block, input: &[u8], room: &mut [u8]) -> Result<(), Refusal> {
    // As above.
    Refusal::check(unsafe {
        ffi::roualint_cbc_enc_aes_inv(iv, key, input.as_ptr(), input.len(), room.as_mut_ptr(), room.len())
    })
}

/// CBC_DEC_AES_INV (3.1.9), by AES-DEC; refused as [`cbc_enc_aes`] is, which it undoes.
pub fn cbc_dec_aes_inv(iv: &Block, key: &Block, input: &[u8], room: &mut [u8]) -> Result<(), Refusal> {
    // As above.
    Refusal::check(unsafe {
        ffi::roualint_cbc_dec_aes_inv(iv, key, input.as_ptr(), input.len(), room.as_mut_ptr(), room.len())
    })
}

/// CMAC-96 (3.1.13). Number 8 where the input is no whole number of blocks, or none.
pub fn cmac_96(key: &Block, input: &[u8]) -> Result<[u8; 12], Refusal> {
    let mut mac = [0; 12];
    // The slice has the bytes it says, and the twelve are a place of their own.
    Refusal::check(unsafe { ffi::roualint_cmac_96(key, input.as_ptr(), input.len(), mac.as_mut_ptr(), mac.len()) })?;
    Ok(mac)
}
