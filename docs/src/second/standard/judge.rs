//! The reader's judge: what a reply to the reader's own message is worth (ISO/IEC 29167-10, 9.4.4, 9.4.7, 9.5.4, 9.5.7,
//! 9.5.10, 9.6.4, 9.6.7), with the numbers of paper 01 in its order: 24, 20, 21, 22, 23. 9.4.7.1 has the MAC before the
//! constant and the challenge; the same replies are accepted either way.

use super::aes::decrypt;
use super::build::serves;
use super::chaining::cbc_dec_aes_inv;
use super::cmac::cmac_96;
use super::frames::{self, constant, Fields, Kind};
use super::messages::mam1_challenge;
use super::sheet::Key;

pub const REPLY_LENGTH: u8 = 20;
pub const CHALLENGE_WRONG: u8 = 21;
pub const MAC_WRONG: u8 = 22;
pub const HEADER_WRONG: u8 = 23;
pub const OWN_MESSAGE: u8 = 24;

/// The room that data want, whatever the message asks for.
pub const DATA_ROOM: usize = 144;

/// What an accepted reply has brought.
#[derive(Default, PartialEq, Debug)]
pub struct Judgement {
    /// The bytes of data, and whether a MAC proves them (ProtModes 2 and 3). Only TAM2 brings data.
    pub data: Option<(usize, bool)>,
    /// TChallenge, after IAM1 and MAM1.
    pub challenge: Option<[u8; 10]>,
}

/// The data go into the room's first bytes. A refusal leaves the room as it was.
pub fn judge(key: &Key, message: &[u8], reply: &[u8], room: &mut [u8]) -> Result<Judgement, u8> {
    check(room.len() >= DATA_ROOM, OWN_MESSAGE)?;
    let (kind, f) = own(key, message).ok_or(OWN_MESSAGE)?;
    check(reply.len() == reply_bytes(kind, f), REPLY_LENGTH)?;
    match kind {
        Kind::Tam1 => {
            first_block(key, "C_TAM1", f, reply)?;
            Ok(Judgement::default())
        }
        Kind::Tam2 => {
            let data = tam2_data(key, f, reply)?;
            room[..data.len()].copy_from_slice(&data);
            Ok(Judgement {
                data: Some((data.len(), f.protmode >= 2)),
                challenge: None,
            })
        }
        Kind::Iam1 => Ok(challenge(reply.try_into().expect("10 bytes"))),
        Kind::Mam1 => {
            first_block(key, "C_MAM1", f, reply)?;
            Ok(challenge(mam1_challenge(key, reply)))
        }
        // A reply of no bits is the acknowledgement.
        Kind::Iam2 | Kind::Iam3 | Kind::Mam2 => Ok(Judgement::default()),
    }
}

/// The reader's own message, where it is one of the table. KeyID and IResponse are not looked at.
fn own(key: &Key, message: &[u8]) -> Option<(Kind, Fields)> {
    let kind = frames::kind_of(*message.first()?)?;
    let f = frames::fields(kind, message);
    let whole = frames::length_fits(Some(kind), message);
    let has_mode = matches!(kind, Kind::Tam2 | Kind::Iam3);
    (whole && f.rfu == 0 && (!has_mode || serves(key, f))).then_some((kind, f))
}

/// The bytes of a reply: Tables 5, 7 to 14, 16, 24; 9.5.6, 9.5.9 and 9.6.6 have none.
pub fn reply_bytes(kind: Kind, f: Fields) -> usize {
    match kind {
        Kind::Tam1 => 16,
        Kind::Tam2 => frames::tam2_reply_bytes(
            f.blocksize as usize,
            f.rev as usize,
            f.blockcount as usize,
            f.protmode as usize,
        ),
        Kind::Iam1 => 10,
        Kind::Mam1 => 22,
        Kind::Iam2 | Kind::Iam3 | Kind::Mam2 => 0,
    }
}

/// The constant and the reader's own IChallenge. The 32 bits between them are the tag's.
fn first_block(key: &Key, name: &str, f: Fields, reply: &[u8]) -> Result<(), u8> {
    let plain = u128::from_be_bytes(decrypt(&key.enc_key, reply[..16].try_into().expect("a block")));
    let fits = plain >> 112 == u128::from(constant(name)) && plain << 48 >> 48 == f.ichallenge;
    check(fits, CHALLENGE_WRONG)
}

/// The data of a TAM2 reply. Rev 0 has no header; filler is judged in both (paper 01).
fn tam2_data(key: &Key, f: Fields, reply: &[u8]) -> Result<Vec<u8>, u8> {
    first_block(key, &constant_name(f), f, reply)?;
    let (covered, mac) = reply.split_at(reply.len() - frames::mac_bytes(f.protmode as usize));
    check(mac.is_empty() || mac == cmac_96(&key.mac_key, covered), MAC_WRONG)?;
    let (first, sent) = covered.split_at(16);
    let payload = match f.protmode {
        1 | 3 => cbc_dec_aes_inv(first.try_into().expect("a block"), &key.enc_key, sent),
        _ => sent.to_vec(),
    };
    let header = match f.rev {
        0 => Vec::new(),
        _ => frames::header(f).expect("fields of a message fit their widths"),
    };
    let (head, rest) = payload.split_at(header.len());
    let (data, filler) = rest.split_at(frames::data_bytes(f.blocksize as usize, f.blockcount as usize));
    check(head == header && filler.iter().all(|&byte| byte == 0), HEADER_WRONG)?;
    Ok(data.to_vec())
}

/// C_TAM2 for Rev 0; for Rev 1 the one of the ProtMode (9.4.7.3).
pub fn constant_name(f: Fields) -> String {
    match f.rev {
        0 => "C_TAM2".to_string(),
        _ => format!("C_TAM2_{}", f.protmode),
    }
}

fn challenge(tchallenge: [u8; 10]) -> Judgement {
    Judgement {
        data: None,
        challenge: Some(tchallenge),
    }
}

fn check(holds: bool, number: u8) -> Result<(), u8> {
    holds.then_some(()).ok_or(number)
}
