//! AES-128 of FIPS 197, byte by byte. Both tables are computed from the field when they are first asked for.

use std::sync::LazyLock;

pub type Block = [u8; 16];

/// State[row][column] (FIPS 197, 3.4).
type State = [[u8; 4]; 4];

/// The rounds of AES-128 (FIPS 197, clause 5).
const ROUNDS: usize = 10;

/// AES-ENC(key, block): Cipher (FIPS 197, 5.1).
pub fn encrypt(key: &Block, block: &Block) -> Block {
    let words = key_expansion(key);
    let mut state = state_of(block);
    add_round_key(&mut state, &words, 0);
    for round in 1..=ROUNDS {
        sub_bytes(&mut state, &TABLES.sbox);
        shift_rows(&mut state, 1);
        if round < ROUNDS {
            mix_columns(&mut state, [2, 3, 1, 1]);
        }
        add_round_key(&mut state, &words, round);
    }
    block_of(&state)
}

/// AES-DEC(key, block): InvCipher (FIPS 197, 5.3).
pub fn decrypt(key: &Block, block: &Block) -> Block {
    let words = key_expansion(key);
    let mut state = state_of(block);
    add_round_key(&mut state, &words, ROUNDS);
    for round in (0..ROUNDS).rev() {
        shift_rows(&mut state, 3);
        sub_bytes(&mut state, &TABLES.inverse_sbox);
        add_round_key(&mut state, &words, round);
        if round > 0 {
            mix_columns(&mut state, [14, 11, 13, 9]);
        }
    }
    block_of(&state)
}

/// The product in GF(2^8) modulo x^8 + x^4 + x^3 + x + 1 (FIPS 197, 4.2).
fn product(a: u8, b: u8) -> u8 {
    let mut sum: u16 = 0;
    for i in 0..8 {
        if b >> i & 1 == 1 {
            sum ^= u16::from(a) << i;
        }
    }
    for degree in (8..15).rev() {
        if sum >> degree & 1 == 1 {
            sum ^= 0x11b << (degree - 8);
        }
    }
    sum as u8
}

/// The products with each factor of MixColumns and of its inverse.
static PRODUCTS: LazyLock<[[u8; 256]; 16]> = LazyLock::new(|| {
    let with = |factor: usize| std::array::from_fn(|byte| product(factor as u8, byte as u8));
    std::array::from_fn(with)
});

struct Tables {
    sbox: [u8; 256],
    inverse_sbox: [u8; 256],
}

static TABLES: LazyLock<Tables> = LazyLock::new(|| {
    let mut tables = Tables {
        sbox: [0; 256],
        inverse_sbox: [0; 256],
    };
    for x in 0..=255u8 {
        let y = affine(inverse(x));
        tables.sbox[usize::from(x)] = y;
        tables.inverse_sbox[usize::from(y)] = x;
    }
    tables
});

/// The byte whose product with x is 1, found by trying each; 0 for 0 (FIPS 197, 4.4 and 5.1.1).
fn inverse(x: u8) -> u8 {
    (0..=255).find(|&y| product(x, y) == 1).unwrap_or(0)
}

/// The affine map of the S-box, bit by bit, with c = 63 (FIPS 197, 5.1.1).
fn affine(b: u8) -> u8 {
    let bit = |i: u32| b >> (i % 8) & 1;
    (0..8)
        .map(|i| (bit(i) ^ bit(i + 4) ^ bit(i + 5) ^ bit(i + 6) ^ bit(i + 7) ^ (0x63 >> i & 1)) << i)
        .sum()
}

/// SubBytes (5.1.1) and InvSubBytes (5.3.2).
fn sub_bytes(state: &mut State, table: &[u8; 256]) {
    for row in state {
        for byte in row {
            *byte = table[usize::from(*byte)];
        }
    }
}

/// ShiftRows: row r by r places to the left (5.1.2). Three times as far is InvShiftRows (5.3.1).
fn shift_rows(state: &mut State, times: usize) {
    for (r, row) in state.iter_mut().enumerate() {
        row.rotate_left(r * times % 4);
    }
}

/// MixColumns (5.1.3) and InvMixColumns (5.3.3): each column times the matrix whose rows are turns of the first.
fn mix_columns(state: &mut State, first: [usize; 4]) {
    let old = *state;
    for r in 0..4 {
        for c in 0..4 {
            let product = |j: usize| PRODUCTS[first[(4 + j - r) % 4]][usize::from(old[j][c])];
            state[r][c] = (0..4).fold(0, |sum, j| sum ^ product(j));
        }
    }
}

/// AddRoundKey: word 4 * round + c is added to column c (5.1.4).
fn add_round_key(state: &mut State, words: &[[u8; 4]], round: usize) {
    for (r, row) in state.iter_mut().enumerate() {
        for (c, byte) in row.iter_mut().enumerate() {
            *byte ^= words[4 * round + c][r];
        }
    }
}

/// KeyExpansion with Nk = 4 (FIPS 197, 5.2).
fn key_expansion(key: &Block) -> Vec<[u8; 4]> {
    let mut words: Vec<[u8; 4]> = key.chunks(4).map(|w| [w[0], w[1], w[2], w[3]]).collect();
    let mut rcon = 1;
    for i in 4..4 * (ROUNDS + 1) {
        let mut temp = words[i - 1];
        if i % 4 == 0 {
            temp.rotate_left(1);
            temp = temp.map(|b| TABLES.sbox[usize::from(b)]);
            temp[0] ^= rcon;
            rcon = product(rcon, 2);
        }
        words.push(std::array::from_fn(|k| words[i - 4][k] ^ temp[k]));
    }
    words
}

/// Input byte r + 4c is State[r][c] (FIPS 197, 3.4).
fn state_of(block: &Block) -> State {
    std::array::from_fn(|r| std::array::from_fn(|c| block[r + 4 * c]))
}

fn block_of(state: &State) -> Block {
    std::array::from_fn(|i| state[i % 4][i / 4])
}
