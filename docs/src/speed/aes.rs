//! The plain AES of this bench, under the names by which the second program's modules call theirs. That one is written
//! to be read and is slow; a tag over it would make any other look fast.

use crate::plain_aes;
pub use crate::plain_aes::Block;

pub fn encrypt(key: &Block, block: &Block) -> Block {
    let mut block = *block;
    plain_aes::encrypt(key, &mut block);
    block
}

pub fn decrypt(key: &Block, block: &Block) -> Block {
    let mut block = *block;
    plain_aes::decrypt(key, &mut block);
    block
}
