//! Values that are against the rule of their record, each by its name.

use crate::cases::draft::{key, lock, profile, Record};
use crate::cases::draws::Draws;

/// By kind.
pub const WAYS: [(u8, &[&str]); 5] = [
    (
        1,
        &[
            "a feature bit that is none",
            "a ProtMode bit that is none",
            "IAM3 without IAM",
        ],
    ),
    (2, &["area 0 over 1024 words", "area 1 over 1024 words"]),
    (
        3,
        &[
            "a KeyID again",
            "a lower KeyID",
            "a third MAC flag",
            "an absent MAC key that is not zeros",
        ],
    ),
    (
        4,
        &[
            "a profile number over 15",
            "a profile again",
            "a lower profile",
            "a profile in a third area",
            "a profile of no words",
            "a profile a word past its area",
            "a profile behind its area",
            "a profile whose end wraps",
        ],
    ),
    (
        5,
        &[
            "a lock in a third area",
            "a lock of no words",
            "a lock a word past its area",
            "a lock whose end wraps",
            "a lock in area 0 behind area 1",
            "a lock on the last word of the one before",
        ],
    ),
];

/// A record of the kind whose value is wrong in this way. The last record before it, and the words of the areas, are
/// given.
pub fn wrong(draws: &mut Draws, way: &str, last: Option<&Record>, words: [usize; 2]) -> Record {
    let past = |draws: &mut Draws, first: usize| {
        let any = first + draws.below(256 - first);
        draws.one_of(&[first, any, 255]) as u8
    };
    let area = usize::from(last.map_or(draws.byte() % 2, |last| last[if last[0] == 4 { 2 } else { 1 }] % 2));
    let number = last.map_or(0, |last| last[1]);
    let base = draws.below(words[area] + 1);
    let wrapping = draws.below(1000);
    let (low, high) = (draws.below(1024), 1 + draws.below(64));
    let next = |draws: &mut Draws| number.saturating_add(1 + draws.byte() % 2);
    let sizes = |first: usize, second: usize| {
        [&[2][..], &(first as u16).to_be_bytes(), &(second as u16).to_be_bytes()].concat()
    };
    let end = last
        .filter(|last| last[0] == 5)
        .map_or(0, |last| word(last, 2) + word(last, 4));
    match way {
        "a feature bit that is none" => vec![1, draws.byte() % 64 | draws.one_of(&[64, 128, 192]), draws.byte() % 16],
        "a ProtMode bit that is none" => vec![1, 0, draws.byte() % 16 | 16 << draws.below(4)],
        "IAM3 without IAM" => vec![1, draws.byte() % 64 & !8 | 16, draws.byte() % 16],
        "area 0 over 1024 words" => sizes(large(draws), low),
        "area 1 over 1024 words" => sizes(low, large(draws)),
        "a KeyID again" => key(number, true, 0xffff, draws.array(), draws.array()),
        "a lower KeyID" => key(
            number.saturating_sub(1 + draws.byte() % 3),
            true,
            1,
            draws.array(),
            draws.array(),
        ),
        "a third MAC flag" => {
            let mut record = key(next(draws), true, 0xffff, draws.array(), draws.array());
            record[2] = past(draws, 2);
            record
        }
        "an absent MAC key that is not zeros" => {
            let mut record = key(next(draws), false, 0xffff, draws.array(), [0; 16]);
            record[21 + draws.below(16)] = 1 + draws.byte() % 255;
            record
        }
        "a profile number over 15" => profile(past(draws, 16), area as u8, 0, 1),
        "a profile again" => profile(number, area as u8, 0, 1),
        "a lower profile" => profile(number.saturating_sub(1 + draws.byte() % 3), area as u8, 0, 1),
        "a profile in a third area" => profile(next(draws), past(draws, 2), 0, 1),
        "a profile of no words" => profile(next(draws), area as u8, base, 0),
        "a profile a word past its area" => profile(next(draws), area as u8, base, words[area] + 1 - base),
        "a profile behind its area" => profile(next(draws), area as u8, words[area] + draws.below(2) * low, high),
        "a profile whose end wraps" => profile(next(draws), area as u8, 65535 - wrapping, wrapping + 2),
        "a lock in a third area" => lock(past(draws, 2), end, 1),
        "a lock of no words" => lock(area as u8, end, 0),
        "a lock a word past its area" => lock(area as u8, end, (words[area] + 1).saturating_sub(end)),
        "a lock whose end wraps" => lock(area as u8, 65535 - wrapping, wrapping + 2),
        "a lock in area 0 behind area 1" => lock(0, draws.below(words[0].max(1)), 1),
        _ => lock(area as u8, end.saturating_sub(1), 1),
    }
}

fn large(draws: &mut Draws) -> usize {
    let any = 1025 + draws.below(65536 - 1025);
    draws.one_of(&[1025, 1026, 2048, 65535, any])
}

fn word(record: &[u8], at: usize) -> usize {
    usize::from(u16::from_be_bytes([record[at], record[at + 1]]))
}
