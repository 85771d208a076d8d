//! What a reader sends: the seven messages of ISO/IEC 29167-10 from their fields and keys, and the challenge it got.
//!
//! The plain of a first block and the header, data and filler are made apart from the messages that carry them, so that
//! a message can also be made from a wrong one.

use super::aes::{decrypt, Block};
use super::chaining::cbc_enc_aes_inv;
use super::cmac::cmac_96;
use super::frames::{self, constant, constant_bytes, Fields, Kind};
use super::sheet::Key;

/// TAM1, TAM2, IAM1 and MAM1: nothing but fields (Tables 4, 6, 15, 23).
pub fn asking(kind: Kind, f: Fields) -> Vec<u8> {
    frames::message(kind, f).expect("fields in their range")
}

/// A constant of 12 bits, Purpose, 32 bits and TChallenge: IRnd is in the middle for IAM2 and IAM3, IChallenge[31:0]
/// for MAM2.
pub fn plain(name: &str, purpose: u8, middle: &[u8], tchallenge: &[u8; 10]) -> Block {
    let first = constant_bytes(constant(name), 12, u16::from(purpose));
    [&first[..], middle, tchallenge].concat().try_into().expect("16 bytes")
}

/// IAM2 and MAM2: AES-DEC of the plain (Tables 17, 25).
pub fn proving(kind: Kind, key: &Key, plain: &Block) -> Vec<u8> {
    with_block(kind, Fields::default(), decrypt(&key.enc_key, plain))
}

/// Header, data and zeros up to D blocks (9.2).
pub fn payload(f: Fields, data: &[u8]) -> Vec<u8> {
    let mut payload = frames::header(f).expect("fields in their range");
    payload.extend(data);
    payload.resize(16 * frames::d(f.blocksize as usize, true, f.blockcount as usize), 0);
    payload
}

/// IAM3 (Tables 18 to 22). A ProtMode above 3 is sent as ProtMode 0 is.
pub fn writing(key: &Key, f: Fields, plain: &Block, payload: &[u8]) -> Vec<u8> {
    let first = decrypt(&key.enc_key, plain);
    let mut message = with_block(Kind::Iam3, f, first);
    match f.protmode {
        1 | 3 => message.extend(cbc_enc_aes_inv(&first, &key.enc_key, payload)),
        _ => message.extend(payload),
    }
    if f.protmode == 2 || f.protmode == 3 {
        message.extend(cmac_96(&key.mac_key, &message[4..]));
    }
    message
}

fn with_block(kind: Kind, f: Fields, block: Block) -> Vec<u8> {
    let iresponse = u128::from_be_bytes(block);
    asking(kind, Fields { iresponse, ..f })
}

/// TChallenge of a MAM1 reply: 48 bits in the clear, 32 in the block (9.6.4).
pub fn mam1_challenge(key: &Key, reply: &[u8]) -> [u8; 10] {
    let opened = decrypt(&key.enc_key, reply[..16].try_into().expect("a block"));
    [&reply[16..22], &opened[2..6]].concat().try_into().expect("10 bytes")
}
