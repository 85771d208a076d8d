//! The reader's builders: the seven messages, each into a lent room (paper 01, "Numbers the reader's side gives").
//!
//! All that can be wrong with an order is 24, and leaves the room as it was.

use super::frames::{self, Fields, Kind};
use super::judge::OWN_MESSAGE;
use super::messages::{payload, plain, proving, writing};
use super::sheet::Key;

/// The room that every builder wants, however short its message is.
pub const MESSAGE_ROOM: usize = 176;

/// What a message is built from. What a kind has not is of no account. The numbers may be out of their range; IRnd and
/// the challenges have 32 and 80 bits.
#[derive(Clone)]
pub struct Order {
    pub kind: Kind,
    /// MAM2 takes IChallenge from here too, that of the MAM1 before it.
    pub fields: Fields,
    pub purpose: u128,
    pub irnd: u128,
    pub tchallenge: u128,
    /// What an IAM3 writes.
    pub data: Vec<u8>,
}

impl Order {
    pub fn empty(kind: Kind) -> Order {
        Order {
            kind,
            fields: Fields::default(),
            purpose: 0,
            irnd: 0,
            tchallenge: 0,
            data: Vec::new(),
        }
    }
}

/// The message's length, its bytes being the room's first, or 24.
pub fn build(key: &Key, order: &Order, room: &mut [u8]) -> Result<usize, u8> {
    let message = made(key, order)
        .filter(|_| room.len() >= MESSAGE_ROOM)
        .ok_or(OWN_MESSAGE)?;
    room[..message.len()].copy_from_slice(&message);
    Ok(message.len())
}

/// The message, where each number fits its bits, ProtMode is one that the keys can serve, and the data are as many as
/// BlockSize and BlockCount say.
pub fn made(key: &Key, order: &Order) -> Option<Vec<u8>> {
    let f = order.fields;
    let asking = frames::message(order.kind, f)?;
    let purpose = u8::try_from(order.purpose).ok().filter(|purpose| *purpose < 16);
    let (irnd, ichallenge) = (&order.irnd.to_be_bytes()[12..], &f.ichallenge.to_be_bytes()[12..]);
    let tchallenge = order.tchallenge.to_be_bytes()[6..].try_into().expect("10 bytes");
    match order.kind {
        Kind::Tam1 | Kind::Iam1 | Kind::Mam1 => Some(asking),
        Kind::Tam2 => serves(key, f).then_some(asking),
        Kind::Iam2 => Some(proving(Kind::Iam2, key, &plain("C_IAM2", purpose?, irnd, &tchallenge))),
        Kind::Mam2 => Some(proving(
            Kind::Mam2,
            key,
            &plain("C_MAM2", purpose?, ichallenge, &tchallenge),
        )),
        Kind::Iam3 => {
            let length = frames::data_bytes(f.blocksize as usize, f.blockcount as usize);
            if !serves(key, f) || order.data.len() != length {
                return None;
            }
            let plain = plain(&format!("C_IAM3_{}", f.protmode), purpose?, irnd, &tchallenge);
            Some(writing(key, f, &plain, &payload(f, &order.data)))
        }
    }
}

/// ProtModes 0 to 3; 2 and 3 need a MAC key (Table 3).
pub fn serves(key: &Key, f: Fields) -> bool {
    f.protmode < 2 || f.protmode < 4 && key.mac
}
