//! The reader's side: the examples of Annex F, then drawn builds and judgements: right ones of every kind, and wrong
//! ones by every field, by every check and by two at once.

mod checks;
mod orders;
mod replies;
mod tally;

use super::annex_f;
use super::draws::Draws;
use super::forger::Forger;
use super::script::Script;
use crate::bench;
use crate::bench::words::shown;
use crate::hex::hex;
use crate::standard::build::{made, Order};
use crate::standard::frames::{self, Fields, Kind};
use crate::standard::sheet::Key;
use checks::{failing, number, Check};

const KEYS: usize = 560;
const BUILDS: usize = 50;
const JUDGEMENTS: usize = 100;

/// Kinds in which much can be wrong come more often.
const OFTEN: [Kind; 16] = [
    Kind::Tam1,
    Kind::Tam2,
    Kind::Tam2,
    Kind::Tam2,
    Kind::Tam2,
    Kind::Tam2,
    Kind::Tam2,
    Kind::Tam2,
    Kind::Iam1,
    Kind::Iam2,
    Kind::Iam3,
    Kind::Iam3,
    Kind::Iam3,
    Kind::Mam1,
    Kind::Mam1,
    Kind::Mam2,
];

pub fn all(script: &mut Script) {
    annex_f::all(script);
    let mut draws = Draws::from(4);
    for i in 0..KEYS {
        let key = Key {
            id: 0,
            mac: i % 6 != 0,
            mpi: 0,
            enc_key: draws.array(),
            mac_key: draws.array(),
        };
        let mac = if key.mac { hex(&key.mac_key) } else { "-".to_string() };
        script.expect(&format!("keys {} {mac}", hex(&key.enc_key)), "ok");
        for _ in 0..BUILDS {
            build(script, &mut draws, &key);
        }
        for _ in 0..JUDGEMENTS {
            judge(script, &mut draws, &key);
        }
    }
    tally::held(script);
}

/// A right build, or one with a word that is out of its range.
fn build(script: &mut Script, draws: &mut Draws, key: &Key) {
    let kind = draws.one_of(&OFTEN);
    let order = orders::drawn(draws, kind);
    let mut words = bench::orders::words(&order);
    let lacks = lacks_mac(key, &order);
    let misfit = draws.once_in(2).then(|| draws.below(orders::count(kind)));
    if let Some(at) = misfit {
        // Behind `build` and the kind.
        words[2 + at] = orders::misfit(draws, &order, at);
    }
    let answer = script.say(&words.join(" "));
    script.count("build");
    match (misfit, lacks) {
        (None, false) => tally::built(script, &order, &answer),
        (Some(at), false) => tally::misfit(script, kind, &format!("word {at}"), &answer),
        (None, true) => tally::misfit(script, kind, "no MAC key", &answer),
        (Some(_), true) => tally::misfit(script, kind, "both", &answer),
    }
}

fn lacks_mac(key: &Key, order: &Order) -> bool {
    matches!(order.kind, Kind::Tam2 | Kind::Iam3) && order.fields.protmode >= 2 && !key.mac
}

/// A reply that is right but for what is to fail, to a message that may be wrong itself.
fn judge(script: &mut Script, draws: &mut Draws, key: &Key) {
    let kind = draws.one_of(&OFTEN);
    let wrong = wrong(draws, kind, key);
    let order = drawn(draws, kind, key, &wrong);
    // The tag has a MAC key, also where the reader has none.
    let tag = Key { mac: true, ..*key };
    let mut message = made(&tag, &order).expect("an order with all in its range");
    let mut forger = Forger {
        draws,
        script,
        failing: &wrong,
        hit: Vec::new(),
    };
    let mut reply = forger.reply(&tag, kind, order.fields);
    let hit = forger.hit;
    spoil(draws, kind, &wrong, &mut message, &mut reply);
    match draws.below(48) {
        0 => message.clear(),
        1 => message[0] = draws.one_of(&[0x60, 0x70, 0xa0, 0xc0, 0xe0, 0xff]),
        2 | 3 => any_bit(draws, &mut message),
        4 | 5 => any_bit(draws, &mut reply),
        _ => {}
    }
    let all = failing(key, &message, &reply);
    let meant = all.first().map_or(0, |&check| number(check));
    let answer = script.say(&format!("judge {} {}", shown(&message), shown(&reply)));
    let told = answer
        .strip_prefix("refused ")
        .map_or(0, |told| told.parse().unwrap_or(255));
    script.holds(&format!("{answer}, not {meant} by {all:?}"), told == meant);
    tally::judged(script, &message, &all, &hit, &answer);
}

/// Nothing, one thing or two.
fn wrong(draws: &mut Draws, kind: Kind, key: &Key) -> Vec<Check> {
    let all = checks::of(kind);
    // Without its key no MAC is judged.
    let can: Vec<Check> = all
        .into_iter()
        .filter(|&check| check != Check::MacKey && (check != Check::Mac || key.mac))
        .collect();
    let count = [0, 1, 1, 2, 2][draws.below(5)];
    let mut wrong: Vec<Check> = (0..count).map(|_| draws.one_of(&can)).collect();
    if !key.mac && matches!(kind, Kind::Tam2 | Kind::Iam3) && draws.once_in(2) {
        wrong.push(Check::MacKey);
    }
    wrong
}

/// An order that can show what is to fail: a header, filler, a MAC.
fn drawn(draws: &mut Draws, kind: Kind, key: &Key, wrong: &[Check]) -> Order {
    let has = |check: Check| wrong.contains(&check);
    let mut order = orders::drawn(draws, kind);
    while kind == Kind::Tam2 && !shows(order.fields, &has) || lacks_mac(key, &order) != has(Check::MacKey) {
        order = orders::drawn(draws, kind);
        if has(Check::Filler) && draws.once_in(4) {
            let most = if order.fields.rev == 1 { [6, 14] } else { [0, 8] };
            order.fields.blockcount = draws.one_of(&most);
        }
    }
    order
}

fn shows(f: Fields, has: &dyn Fn(Check) -> bool) -> bool {
    let (size, count) = (f.blocksize as usize, f.blockcount as usize);
    let header = if f.rev == 1 { frames::header_bits(size) / 8 } else { 0 };
    let filler = (header + frames::data_bytes(size, count)) % 16 != 0;
    (filler || !has(Check::Filler)) && (f.rev == 1 || !has(Check::Header)) && (f.protmode >= 2 || !has(Check::Mac))
}

/// An RFU bit, a ProtMode above 3, another length of the message or of the reply.
fn spoil(draws: &mut Draws, kind: Kind, wrong: &[Check], message: &mut Vec<u8>, reply: &mut Vec<u8>) {
    for check in wrong {
        match check {
            Check::Rfu => {
                let mask = frames::rfu_mask(kind);
                let bits: Vec<u8> = (0..8).map(|bit| 1 << bit).filter(|bit| mask & bit != 0).collect();
                message[0] |= draws.one_of(&bits);
            }
            // BlockCount and ProtMode: the last byte of TAM2, the fourth of IAM3.
            Check::Mode => message[if kind == Kind::Tam2 { 14 } else { 3 }] |= draws.one_of(&[4, 8, 12]),
            Check::Length => another_length(draws, reply, 0),
            _ => {}
        }
    }
    if wrong.contains(&Check::OwnLength) {
        another_length(draws, message, 1);
    }
}

/// One byte more or less, a cut, a MAC or a block more or less; as long as a TAM1's reply.
fn another_length(draws: &mut Draws, bytes: &mut Vec<u8>, least: usize) {
    let length = bytes.len();
    let by = draws.one_of(&[12, 16, 32]);
    let other = match draws.below(8) {
        0..=2 => length + 1,
        3 => length.saturating_sub(1),
        4 => draws.below(length + 1),
        5 => length.saturating_sub(by),
        6 => 16,
        _ => length + by,
    };
    let other = if other == length { length + 1 } else { other.max(least) };
    bytes.truncate(other);
    let more = draws.bytes(other - bytes.len());
    bytes.extend(more);
}

fn any_bit(draws: &mut Draws, bytes: &mut [u8]) {
    if !bytes.is_empty() {
        let at = draws.below(bytes.len());
        draws.flip(&mut bytes[at]);
    }
}
