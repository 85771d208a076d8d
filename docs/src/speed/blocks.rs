//! Nanoseconds a block: the proved cipher beside plain Rust.
//!
//! Each output is the next input, so that no call can start before the one before it ends. Both sides are called
//! through a pointer and expand the key in each call.

use crate::plain_aes::{self, Block};
use std::hint::black_box;
use std::time::Instant;

#[link(name = "capi", kind = "static")]
extern "C" {
    fn roualint_aes_enc(key: &Block, block: &mut Block);
    fn roualint_aes_dec(key: &Block, block: &mut Block);
}

/// One way of the cipher: the block is ciphered where it stands.
type Way = fn(&Block, &mut Block);

fn rattle_enc(key: &Block, block: &mut Block) {
    // The Rattle function reads 16 bytes of the key, reads and writes 16 of the block, and keeps neither.
    unsafe { roualint_aes_enc(key, block) }
}

fn rattle_dec(key: &Block, block: &mut Block) {
    // As above.
    unsafe { roualint_aes_dec(key, block) }
}

/// Name, plain Rust, Rattle.
const PAIRS: [(&str, Way, Way); 2] = [
    ("AES-ENC", plain_aes::encrypt, rattle_enc),
    ("AES-DEC", plain_aes::decrypt, rattle_dec),
];

const ROUNDS: usize = 40;
const BLOCKS: usize = 10_000;

/// Prints the figures, or gives the name of the way in which the two differ.
pub fn measure() -> Result<(), String> {
    if let Some((name, _, _)) = PAIRS.into_iter().find(|&(_, rust, rattle)| !alike(rust, rattle)) {
        return Err(name.to_string());
    }
    let mut best = [[f64::INFINITY; 2]; 2];
    for _ in 0..ROUNDS {
        for (times, (_, rust, rattle)) in best.iter_mut().zip(PAIRS) {
            times[0] = times[0].min(nanoseconds_a_block(rust));
            times[1] = times[1].min(nanoseconds_a_block(rattle));
        }
    }
    println!("nanoseconds a block, key expansion included; best of {ROUNDS} rounds of {BLOCKS} chained blocks");
    println!("{:8}{:>9}{:>9}{:>15}", "", "Rust", "Rattle", "Rattle / Rust");
    for ([rust, rattle], (name, _, _)) in best.into_iter().zip(PAIRS) {
        println!("{name:8}{rust:>9.1}{rattle:>9.1}{:>15.2}", rattle / rust);
    }
    Ok(())
}

/// Whether both give the same on a chain of blocks, each under another key.
fn alike(rust: Way, rattle: Way) -> bool {
    let mut key = [0; 16];
    let mut block = [0; 16];
    (0..BLOCKS).all(|_| {
        let mut other = block;
        rust(&key, &mut block);
        rattle(&key, &mut other);
        let same = block == other;
        for (k, b) in key.iter_mut().zip(block) {
            *k = k.rotate_left(3) ^ b;
        }
        same
    })
}

fn nanoseconds_a_block(way: Way) -> f64 {
    let key: Block = std::array::from_fn(|i| i as u8);
    let mut block = [0; 16];
    let start = Instant::now();
    for _ in 0..BLOCKS {
        way(black_box(&key), &mut block);
    }
    let passed = start.elapsed();
    black_box(block);
    passed.as_secs_f64() * 1e9 / BLOCKS as f64
}
