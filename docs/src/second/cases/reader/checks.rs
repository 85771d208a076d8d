//! What can be wrong with a reply, or with the reader's own message: each check by itself, in the order of paper 01.

use crate::standard::aes::decrypt;
use crate::standard::build::serves;
use crate::standard::chaining::cbc_dec_aes_inv;
use crate::standard::cmac::cmac_96;
use crate::standard::frames::{self, Fields, Kind};
use crate::standard::judge::{constant_name, reply_bytes};
use crate::standard::sheet::Key;

#[derive(Clone, Copy, PartialEq, Eq, Debug)]
pub enum Check {
    /// The own message: none at all, no method or step, another length, an RFU bit, a ProtMode above 3, no key for
    /// its MAC.
    Empty,
    Method,
    OwnLength,
    Rfu,
    Mode,
    MacKey,
    Length,
    Constant,
    Challenge,
    Mac,
    Header,
    Filler,
}

use Check::*;

/// The checks of a kind's reply, in their order. Those of the first two leave no kind.
pub fn of(kind: Kind) -> Vec<Check> {
    let own: &[Check] = match kind {
        Kind::Tam2 | Kind::Iam3 => &[OwnLength, Rfu, Mode, MacKey],
        _ => &[OwnLength, Rfu],
    };
    let reply: &[Check] = match kind {
        Kind::Tam1 | Kind::Mam1 => &[Length, Constant, Challenge],
        Kind::Tam2 => &[Length, Constant, Challenge, Mac, Header, Filler],
        _ => &[Length],
    };
    [own, reply].concat()
}

pub fn number(check: Check) -> u8 {
    match check {
        Empty | Method | OwnLength | Rfu | Mode | MacKey => 24,
        Length => 20,
        Constant | Challenge => 21,
        Mac => 22,
        Header | Filler => 23,
    }
}

/// All checks that fail. Of a reply that is too long its front is looked at, of one that is too short its first block.
pub fn failing(key: &Key, message: &[u8], reply: &[u8]) -> Vec<Check> {
    let Some(&first) = message.first() else {
        return vec![Empty];
    };
    let Some(kind) = frames::kind_of(first) else {
        return vec![Method];
    };
    let f = frames::fields(kind, message);
    let fails = |check: &Check| match check {
        OwnLength => !frames::length_fits(Some(kind), message),
        Rfu => f.rfu != 0,
        Mode => f.protmode > 3,
        MacKey => f.protmode <= 3 && !serves(key, f),
        Length => reply.len() != reply_bytes(kind, f),
        Constant | Challenge => reply.len() >= 16 && first_block_fails(key, kind, f, reply, *check),
        _ => reply.len() >= reply_bytes(kind, f) && data_fail(key, f, &reply[..reply_bytes(kind, f)], *check),
    };
    of(kind).into_iter().filter(fails).collect()
}

fn first_block_fails(key: &Key, kind: Kind, f: Fields, reply: &[u8], check: Check) -> bool {
    let plain = decrypt(&key.enc_key, reply[..16].try_into().expect("a block"));
    let name = match kind {
        Kind::Tam1 => "C_TAM1".to_string(),
        Kind::Mam1 => "C_MAM1".to_string(),
        // There is no constant to compare with.
        _ if f.protmode > 3 && f.rev == 1 => {
            return check == Challenge && plain[6..] != f.ichallenge.to_be_bytes()[6..]
        }
        _ => constant_name(f),
    };
    match check {
        Constant => plain[..2] != frames::constant(&name).to_be_bytes(),
        _ => plain[6..] != f.ichallenge.to_be_bytes()[6..],
    }
}

fn data_fail(key: &Key, f: Fields, reply: &[u8], check: Check) -> bool {
    let (covered, mac) = reply.split_at(reply.len() - frames::mac_bytes(f.protmode as usize));
    let first = covered[..16].try_into().expect("a block");
    let payload = match f.protmode {
        1 | 3 => cbc_dec_aes_inv(first, &key.enc_key, &covered[16..]),
        _ => covered[16..].to_vec(),
    };
    let header = if f.rev == 1 {
        frames::header(f).expect("a message's fields")
    } else {
        Vec::new()
    };
    let filled = header.len() + frames::data_bytes(f.blocksize as usize, f.blockcount as usize);
    match check {
        Mac => key.mac && !mac.is_empty() && mac != cmac_96(&key.mac_key, covered),
        Header => payload[..header.len()] != header,
        _ => payload[filled..].iter().any(|&byte| byte != 0),
    }
}
