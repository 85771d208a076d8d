//! What stands behind `build`: the fields of each message, as words and back.

use super::words::{as_many, bytes, number, shown, Fault};
use crate::hex;
use crate::standard::build::Order;
use crate::standard::frames::{place, Kind};

/// The messages' names, in the order of KINDS.
pub const NAMES: [&str; 7] = ["tam1", "tam2", "iam1", "iam2", "iam3", "mam1", "mam2"];

/// A number, or so many bytes.
#[derive(Clone, Copy, PartialEq)]
pub enum Width {
    Number,
    Bytes(usize),
}

use Width::{Bytes, Number};

/// The fields before the data, in the order of the words.
pub fn fields(order: &mut Order) -> Vec<(&mut u128, Width)> {
    let f = &mut order.fields;
    let ichallenge = (&mut f.ichallenge, Bytes(10));
    let proof = [
        (&mut order.purpose, Number),
        (&mut order.irnd, Bytes(4)),
        (&mut order.tchallenge, Bytes(10)),
    ];
    let block = [&mut f.profile, &mut f.offset, &mut f.blockcount, &mut f.protmode].map(|field| (field, Number));
    match order.kind {
        Kind::Tam1 | Kind::Mam1 => vec![(&mut f.keyid, Number), ichallenge],
        Kind::Tam2 => {
            let front = [&mut f.blocksize, &mut f.rev, &mut f.keyid].map(|field| (field, Number));
            front.into_iter().chain([ichallenge]).chain(block).collect()
        }
        Kind::Iam1 => vec![(&mut f.keyid, Number)],
        Kind::Iam2 => proof.into(),
        Kind::Iam3 => [(&mut f.blocksize, Number)]
            .into_iter()
            .chain(block)
            .chain(proof)
            .collect(),
        Kind::Mam2 => {
            let [purpose, _, tchallenge] = proof;
            vec![purpose, ichallenge, tchallenge]
        }
    }
}

/// The words of a build, with `build` before them.
pub fn words(order: &Order) -> Vec<String> {
    let mut order = order.clone();
    let mut words = vec!["build".to_string(), NAMES[place(order.kind)].to_string()];
    for (value, width) in fields(&mut order) {
        words.push(match width {
            Number => value.to_string(),
            Bytes(count) => hex::hex(&value.to_be_bytes()[16 - count..]),
        });
    }
    if order.kind == Kind::Iam3 {
        words.push(shown(&order.data));
    }
    words
}

/// What a message is to be built from. None where IRnd or a challenge has not its length; a number too large for its
/// field is left to the builder.
pub fn read(kind: Kind, words: &[&[u8]]) -> Result<Option<Order>, Fault> {
    let mut order = Order::empty(kind);
    let mut fits = true;
    let fields = fields(&mut order);
    let (count, writes) = (fields.len(), kind == Kind::Iam3);
    as_many(words, count + usize::from(writes))?;
    for ((value, width), word) in fields.into_iter().zip(words) {
        *value = match width {
            Number => number(word)? as u128,
            Bytes(count) => {
                let bytes = bytes(word)?;
                fits &= bytes.len() == count;
                hex::number(&bytes)
            }
        };
    }
    if writes {
        order.data = bytes(words[count])?;
    }
    Ok(fits.then_some(order))
}
