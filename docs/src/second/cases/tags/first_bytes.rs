//! Every first byte, in messages of every length that a kind of message can have, one byte less and one more: the
//! kind is the first byte's alone, and its RFU bits, all of them together too, do not change it (9.3). And every
//! ProtMode in an IAM3 that is cut: a ProtMode above 3 has no length, and from four bytes on it is told first (9.5.8).

use crate::cases::draft::{key, profile, Draft};
use crate::cases::script::Script;
use crate::hex::hex;

const KEYID: u8 = 1;
const LENGTHS: [usize; 5] = [2, 12, 15, 17, 36];
const DRAWS: &str = "00112233445566778899";

/// What brings the tag from Initial to IAM-Init and to MAM-Init.
const IAM1: &str = "4001";
const MAM1: &str = "800100010203040506070809";

pub fn all(script: &mut Script) {
    let draft = Draft {
        features: 0x3f,
        modes: 0x0f,
        words: [64, 64],
        keys: vec![key(KEYID, true, 0xffff, [0x5a; 16], [0xa5; 16])],
        profiles: vec![profile(0, 1, 0, 64)],
        locks: Vec::new(),
    };
    script.expect(&format!("sheet {}", hex(&draft.bytes())), "ok");
    for before in [None, Some(IAM1), Some(MAM1)] {
        for first in 0..=255u8 {
            for length in LENGTHS.into_iter().flat_map(|length| [length - 1, length, length + 1]) {
                let rest = (1..length).map(|place| if place == 1 { KEYID } else { place as u8 - 2 });
                let message: Vec<u8> = [first].into_iter().chain(rest).collect();
                sent(script, before, &message);
            }
        }
    }
    for last in 0..=255u8 {
        for length in 1..=8 {
            let message = [[0x58, 0, 0, last].as_slice(), &[0; 4]].concat();
            sent(script, Some(IAM1), &message[..length]);
        }
    }
}

fn sent(script: &mut Script, before: Option<&str>, message: &[u8]) {
    script.say("power");
    if let Some(before) = before {
        script.say(&format!("message {before} {DRAWS}"));
    }
    script.say(&format!("message {} {DRAWS}", hex(message)));
    script.count("message");
}
