//! What the builds and judgements have shown, and whether it is enough.

use super::checks::{self, number, Check};
use super::orders;
use super::replies::others;
use crate::cases::script::{word, Script};
use crate::standard::build::Order;
use crate::standard::frames::{self, Kind, KINDS};
use crate::standard::judge::OWN_MESSAGE;

/// At least so many; so often each number is given, and each kind built or its reply accepted.
const BUILDS: usize = 20_000;
const JUDGEMENTS: usize = 30_000;
const EACH_NUMBER: usize = 500;
const EACH_KIND: usize = 500;

/// At least so often a word is out of its range; a check fails alone, and two of different numbers at once; a place
/// is hit.
const EACH_MISFIT: usize = 40;
const EACH_ALONE: usize = 100;
const EACH_PAIR: usize = 15;
const EACH_PLACE: usize = 3;

/// At least so often each BlockSize, Rev and ProtMode comes with each BlockCount, and with the largest.
const EACH_FORM: usize = 2;
const EACH_LARGEST: usize = 20;

pub fn built(script: &mut Script, order: &Order, answer: &str) {
    script.holds(&format!("{answer} is no message"), answer.starts_with("message "));
    script.count(format!("{:?} built", order.kind));
    if matches!(order.kind, Kind::Tam2 | Kind::Iam3) {
        let f = order.fields;
        let rev = if order.kind == Kind::Tam2 { f.rev } else { 1 };
        script.count(form(order.kind, "built", [f.blocksize, rev, f.protmode, f.blockcount]));
        script.count(format!("built {} bytes", word(answer, 1).len() / 2));
    }
}

pub fn misfit(script: &mut Script, kind: Kind, what: &str, answer: &str) {
    let refused = format!("refused {OWN_MESSAGE}");
    script.holds(&format!("{kind:?} with {what}: {answer}"), answer == refused);
    script.count(refused);
    script.count(format!("{kind:?} not built: {what}"));
}

fn form(kind: Kind, done: &str, [size, rev, mode, count]: [u128; 4]) -> String {
    format!("{kind:?} {done} with BlockSize {size} Rev {rev} ProtMode {mode} BlockCount {count}")
}

pub fn judged(script: &mut Script, message: &[u8], failing: &[Check], hit: &[String], answer: &str) {
    script.count("judge");
    let kind = message.first().and_then(|&first| frames::kind_of(first));
    let name = kind.map_or("none".to_string(), |kind| format!("{kind:?}"));
    for (i, &a) in failing.iter().enumerate() {
        for &b in &failing[i + 1..] {
            script.count(format!("{name}: {a:?} before {b:?}"));
        }
    }
    match failing {
        [] => {
            script.count(format!("{name} accepted"));
            script.count(word(answer, 5));
            if let Some(Kind::Tam2) = kind {
                let f = frames::fields(Kind::Tam2, message);
                script.count(form(
                    Kind::Tam2,
                    "judged",
                    [f.blocksize, f.rev, f.protmode, f.blockcount],
                ));
            }
        }
        [check, ..] => script.count(format!("refused {}", number(*check))),
    }
    if let [check] = failing {
        script.count(format!("{name}: {check:?} alone"));
        for place in hit {
            script.count(format!("alone: {place}"));
        }
    }
}

pub fn held(script: &mut Script) {
    script.often("build", BUILDS);
    script.often("judge", JUDGEMENTS);
    for number in 20..=24 {
        script.often(&format!("refused {number}"), EACH_NUMBER);
    }
    for word in ["proved", "unproved", "-"] {
        script.often(word, EACH_KIND);
    }
    for kind in KINDS {
        script.often(&format!("{kind:?} built"), EACH_KIND);
        script.often(&format!("{kind:?} accepted"), EACH_KIND);
        for at in 0..orders::count(kind) {
            script.often(&format!("{kind:?} not built: word {at}"), EACH_MISFIT);
        }
    }
    for kind in [Kind::Tam2, Kind::Iam3] {
        script.often(&format!("{kind:?} not built: no MAC key"), EACH_MISFIT);
    }
    checks_held(script);
    forms_held(script);
    places_held(script);
}

/// Each check alone, and each two of different numbers, where one case can have both.
fn checks_held(script: &mut Script) {
    script.often("none: Empty alone", EACH_ALONE);
    script.often("none: Method alone", EACH_ALONE);
    for kind in KINDS {
        let all = checks::of(kind);
        for (i, &a) in all.iter().enumerate() {
            script.often(&format!("{kind:?}: {a:?} alone"), EACH_ALONE);
            for &b in &all[i + 1..] {
                // Without the key no MAC is judged, and a ProtMode above 3 has none.
                let never = b == Check::Mac && matches!(a, Check::MacKey | Check::Mode);
                if number(a) != number(b) && !never {
                    script.often(&format!("{kind:?}: {a:?} before {b:?}"), EACH_PAIR);
                }
            }
        }
    }
}

fn forms_held(script: &mut Script) {
    for (kind, revs, done) in [
        (Kind::Tam2, 0..2, "built"),
        (Kind::Iam3, 1..2, "built"),
        (Kind::Tam2, 0..2, "judged"),
    ] {
        for rev in revs {
            for at in 0..8 * 16 {
                let (size, mode, count) = (at / 64, at / 16 % 4, at % 16);
                let least = if count == 15 { EACH_LARGEST } else { EACH_FORM };
                script.often(&form(kind, done, [size, rev, mode, count]), least);
            }
        }
    }
    script.often("built 176 bytes", EACH_LARGEST);
}

/// Every byte that is compared, damaged alone; every other constant.
fn places_held(script: &mut Script) {
    for (kind, names) in [
        (Kind::Tam1, &["C_TAM1"][..]),
        (Kind::Mam1, &["C_MAM1"]),
        (Kind::Tam2, &["C_TAM2", "C_TAM2_0", "C_TAM2_1", "C_TAM2_2", "C_TAM2_3"]),
    ] {
        for at in 0..10 {
            script.often(&format!("alone: {kind:?} IChallenge byte {at}"), EACH_PLACE);
        }
        for right in names.iter().map(|name| frames::constant(name)) {
            for other in others(right) {
                script.often(
                    &format!("alone: {kind:?} constant {other:04x} for {right:04x}"),
                    EACH_PLACE,
                );
            }
        }
    }
    for at in 0..16 {
        let (size, rev, mode) = (at / 8, at / 4 % 2, at % 4);
        let header = rev * frames::header_bits(size) / 8;
        let filler = [8, 14][size];
        for (what, bytes) in [("header", header), ("filler", filler), ("MAC", frames::mac_bytes(mode))] {
            for at in 0..bytes {
                script.often(
                    &format!("alone: {what} byte {at} of BlockSize {size} in Rev {rev}, ProtMode {mode}"),
                    EACH_PLACE,
                );
            }
        }
    }
}
