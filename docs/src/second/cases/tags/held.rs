//! What the calls have to show.

use super::checks::{self, number, Check, BENCH};
use crate::cases::script::Script;
use crate::standard::frames::{self, Kind, KINDS};

/// At least so many tags and messages; so often each number is given and each kind accepted.
const TAGS: usize = 3000;
const MESSAGES: usize = 50_000;
const EACH_NUMBER: usize = 500;
const EACH_KIND: usize = 500;

/// At least so often a check fails alone, and two of different numbers at once; so often what was damaged is a
/// certain place.
const EACH_ALONE: usize = 40;
const EACH_PAIR: usize = 15;
/// What few tags can show, and faults of the bench.
const EACH_SELDOM: usize = 5;
const EACH_PLACE: usize = 3;

/// At least so often a kind comes in a state; a BlockSize, Rev and ProtMode is accepted with each BlockCount, and
/// with the largest.
const EACH_TURN: usize = 100;
const EACH_FORM: usize = 1;
const EACH_LARGEST: usize = 20;
const EACH_EDGE: usize = 60;
const EACH_OF_SIXTEEN: usize = 30;

const STATES: [&str; 4] = ["Initial", "IAM-Init", "MAM-Init", "IA-OK"];

pub fn all(script: &mut Script) {
    script.often("tag", TAGS);
    script.often("message", MESSAGES);
    for number in 1..=7 {
        script.often(&format!("refused {number}"), EACH_NUMBER);
    }
    for kind in KINDS {
        script.often(&format!("{kind:?} accepted"), EACH_KIND);
    }
    checks_held(script);
    turns_held(script);
    forms_held(script);
    places_held(script);
}

/// Each check alone, and each two of different numbers, where one message can have both.
fn checks_held(script: &mut Script) {
    for kind in KINDS {
        let all: Vec<Check> = BENCH.into_iter().chain(checks::of(kind).iter().copied()).collect();
        for (i, &a) in all.iter().enumerate() {
            let (alone, pair) = if i < BENCH.len() {
                (EACH_SELDOM, EACH_SELDOM)
            } else {
                (EACH_ALONE, EACH_PAIR)
            };
            // Where a method is not there, its second message is out of turn too.
            if a != Check::Feature || !matches!(kind, Kind::Iam2 | Kind::Mam2) {
                script.often(&format!("{kind:?}: {a:?} alone"), alone);
            }
            for &b in &all[i + 1..] {
                if number(a, Some(kind)) != number(b, Some(kind)) && meet(kind, a, b) {
                    script.often(&format!("{kind:?}: {a:?} before {b:?}"), pair);
                }
            }
        }
    }
}

/// A profile that is not there has no end and no locks; a message out of turn has no record to be judged with; of one
/// that has not its length the data are not looked at; an IAM that is not there has no session. (What a tag lacks is
/// in the sheet.)
fn meet(kind: Kind, a: Check, b: Check) -> bool {
    use Check::*;
    let by_record = [MacKey, Right, Constant, IChallenge, Challenge, Mac, Header, Filler];
    let data = [Mac, Header, Filler];
    !(a == Profile && [Memory, Lock].contains(&b)
        || a == Turn && by_record.contains(&b) && kind == Kind::Iam3
        || a == Turn && [Constant, IChallenge, Challenge].contains(&b)
        || a == Length && data.contains(&b)
        || a == Length && b == MacKey
        || a == Feature && kind != Kind::Iam3 && by_record.contains(&b))
}

fn turns_held(script: &mut Script) {
    for state in STATES {
        for kind in KINDS {
            let taken = match kind {
                Kind::Tam1 | Kind::Tam2 => true,
                Kind::Iam1 | Kind::Mam1 => matches!(state, "Initial" | "IA-OK"),
                Kind::Iam2 | Kind::Iam3 => state == "IAM-Init",
                Kind::Mam2 => state == "MAM-Init",
            };
            let number = if taken { 0 } else { 5 };
            script.often(&format!("{state}: {kind:?} {number}"), EACH_TURN);
            script.often(&format!("{state}: {kind:?} 7"), EACH_SELDOM);
            if taken {
                script.often(&format!("{state}: {kind:?} 1"), EACH_ALONE);
                script.often(&format!("{state}: {kind:?} 2"), EACH_ALONE);
            }
        }
        script.often(&format!("{state}: Tam2 3"), EACH_ALONE);
    }
    for state in ["IAM-Init", "MAM-Init"] {
        for kind in KINDS {
            script.often(&format!("{state}: {kind:?} refused, then the proof"), EACH_ALONE);
        }
        for what in ["Tam1", "Tam2", "power"] {
            script.often(&format!("{state}: {what} accepted, then the proof"), EACH_ALONE);
        }
        for what in ["any bytes", "no byte"] {
            script.often(&format!("{state}: {what} refused, then the proof"), EACH_SELDOM);
        }
    }
    for purpose in 0..16 {
        script.often(&format!("Purpose {purpose}"), EACH_ALONE);
    }
}

fn forms_held(script: &mut Script) {
    for (kind, revs) in [(Kind::Tam2, 0..2), (Kind::Iam3, 1..2)] {
        for rev in revs {
            for form in 0..8 {
                for count in 0..16 {
                    let least = if count == 15 { EACH_LARGEST } else { EACH_FORM };
                    let (size, mode) = (form / 4, form % 4);
                    script.often(
                        &format!("{kind:?} BlockSize {size} Rev {rev} ProtMode {mode} BlockCount {count}"),
                        least,
                    );
                }
            }
        }
        for edge in [
            "ends with its profile",
            "above word 255",
            "in a profile of 1024 words",
            "ends before a lock",
            "starts behind a lock",
            "ends one block past its profile",
            "ends far past its profile",
        ] {
            script.often(&format!("{kind:?} {edge}"), EACH_EDGE);
        }
        for profile in 0..16 {
            script.often(&format!("profile {profile} used by {kind:?}"), EACH_OF_SIXTEEN);
        }
    }
    for edge in [
        "ends on the first word of a lock",
        "starts on the last word of a lock",
        "is locked above word 255",
        "is in a lock of over 255 words",
        "starts on the last word of a lock of over 700 words",
    ] {
        script.often(&format!("Iam3 {edge}"), EACH_SELDOM);
    }
    script.often("message of 176 bytes", EACH_LARGEST);
    for at in 0..16 {
        script.often(&format!("Iam3 is refused by lock {at}"), EACH_PLACE);
        for kind in [Kind::Tam1, Kind::Iam1, Kind::Mam1] {
            script.often(&format!("{kind:?} for record {at}"), EACH_PLACE);
        }
    }
    for kind in [Kind::Tam1, Kind::Iam1, Kind::Mam1] {
        script.often(&format!("{kind:?} for a KeyID above 240"), EACH_EDGE);
    }
}

/// Every byte that is compared, damaged alone; every other constant.
fn places_held(script: &mut Script) {
    for kind in [Kind::Iam2, Kind::Iam3, Kind::Mam2] {
        for at in 0..10 {
            script.often(&format!("alone: {kind:?} TChallenge byte {at}"), EACH_PLACE);
        }
        for mode in 0..if kind == Kind::Iam3 { 4 } else { 1 } {
            let right = 0xda8 + mode;
            let bits = (0..12).map(|bit| right ^ 1 << bit);
            for constant in bits.chain(0xda8..0xdac).filter(|&constant| constant != right) {
                script.often(
                    &format!("alone: {kind:?} constant {constant:03x} in ProtMode {mode}"),
                    EACH_PLACE,
                );
            }
        }
    }
    for at in 0..4 {
        script.often(&format!("alone: Mam2 IChallenge byte {at}"), EACH_PLACE);
    }
    for (size, header, filler) in [(0, 8, 8), (1, 4, 14)] {
        for mode in 0..4 {
            let mac = if mode < 2 { 0 } else { frames::mac_bytes(mode) };
            for (what, bytes) in [("header", header), ("filler", filler), ("MAC", mac)] {
                for at in 0..bytes {
                    script.often(
                        &format!("alone: {what} byte {at} of BlockSize {size} in ProtMode {mode}"),
                        EACH_PLACE,
                    );
                }
            }
        }
    }
}
