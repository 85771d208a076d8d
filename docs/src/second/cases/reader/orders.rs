//! Drawn orders for the reader's builders, and what can be wrong with one: a word that is out of its field's range.

use crate::bench::orders::{fields, Width};
use crate::bench::words::shown;
use crate::cases::draws::Draws;
use crate::hex::number;
use crate::standard::build::Order;
use crate::standard::frames::{data_bytes, Fields, Kind};

/// An order with all in its range.
pub fn drawn(draws: &mut Draws, kind: Kind) -> Order {
    let blocksize = draws.below(2);
    let blockcount = if draws.once_in(4) { 15 } else { draws.below(16) };
    let offset = match draws.below(8) {
        0 | 1 => draws.below(4),
        2 => 4095 - draws.below(2),
        _ => draws.below(4096),
    };
    let length = if kind == Kind::Iam3 {
        data_bytes(blocksize, blockcount)
    } else {
        0
    };
    Order {
        kind,
        fields: Fields {
            blocksize: blocksize as u128,
            rev: draws.below(2) as u128,
            keyid: draws.below(256) as u128,
            ichallenge: number(&draws.array::<10>()),
            profile: draws.below(16) as u128,
            offset: offset as u128,
            blockcount: blockcount as u128,
            protmode: draws.below(4) as u128,
            ..Fields::default()
        },
        purpose: draws.below(16) as u128,
        irnd: number(&draws.array::<4>()),
        tchallenge: number(&draws.array::<10>()),
        data: draws.bytes(length),
    }
}

/// How many words follow the message's name.
pub fn count(kind: Kind) -> usize {
    fields(&mut Order::empty(kind)).len() + usize::from(kind == Kind::Iam3)
}

/// The least number that each field cannot have. Fields of bytes have none.
fn limits(kind: Kind) -> &'static [usize] {
    match kind {
        Kind::Tam1 | Kind::Mam1 => &[256, 0],
        Kind::Tam2 => &[2, 2, 256, 0, 16, 4096, 16, 4],
        Kind::Iam1 => &[256],
        Kind::Iam2 | Kind::Mam2 => &[16, 0, 0],
        Kind::Iam3 => &[2, 16, 4096, 16, 4, 16, 0, 0, 0],
    }
}

/// A word that the field cannot have: the least one, one that is the right one but for higher bits, the largest, any;
/// of bytes one more or less, none, or others that a builder could take for its own.
pub fn misfit(draws: &mut Draws, order: &Order, at: usize) -> String {
    let mut order = order.clone();
    let (size, blocks) = (order.fields.blocksize as usize, order.fields.blockcount as usize);
    let data = order.data.len();
    let (value, width) = match fields(&mut order).get(at) {
        Some((value, Width::Number)) => (**value as usize, None),
        Some((_, Width::Bytes(count))) => (0, Some(*count)),
        None => (0, Some(data)),
    };
    let limit = limits(order.kind)[at];
    let Some(length) = width else {
        let any = limit + draws.below(65536 - limit);
        let alike = value % limit + limit * (1 + draws.below(65536 / limit - 1));
        return draws.one_of(&[limit, limit + 1, 65535, any, alike, alike]).to_string();
    };
    let mut lengths = vec![length - 1, length + 1, 0, 16];
    if at == limits(Kind::Iam3).len() - 1 {
        lengths.extend([data_bytes(1 - size, blocks), data_bytes(size, blocks + 1), 2 * length]);
    }
    lengths.retain(|&other| other != length);
    let other = draws.one_of(&lengths);
    shown(&draws.bytes(other))
}
