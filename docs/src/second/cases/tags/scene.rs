//! A tag to try messages on: a drawn sheet that keeps every rule, most of it of use.

use crate::cases::draft::{self, Draft, Record, MOST_WORDS};
use crate::cases::draws::Draws;

/// A feature is left out once in so many sheets: BlockSize 1, Rev 0, Rev 1, IAM, IAM3, MAM, the ProtModes.
const LEFT_OUT: [usize; 10] = [3, 5, 5, 12, 12, 10, 6, 6, 6, 6];

/// Up to 40 words and few records; room for 16 blocks of 64 bits; up to 1,024 words; 16 records of each kind.
#[derive(Clone, Copy, PartialEq)]
pub enum Style {
    Small,
    Roomy,
    Huge,
    Full,
}

pub fn drawn(draws: &mut Draws, style: Style) -> Draft {
    let (features, modes) = features(draws);
    let words = [words(draws, style), words(draws, style)];
    let few = |draws: &mut Draws| if style == Style::Full { 16 } else { 1 + draws.below(3) };
    let keys = if draws.once_in(48) { 0 } else { few(draws) };
    let profiles = few(draws) + usize::from(style != Style::Full) * draws.below(3);
    let locks = match style {
        Style::Full => 16,
        Style::Huge => 3 + draws.below(6),
        _ => draws.below(6),
    };
    let mut draft = Draft {
        features,
        modes,
        words,
        keys: draft::keys(draws, keys),
        profiles: draft::profiles(draws, profiles, words),
        locks: draft::locks(draws, locks, words),
    };
    if style != Style::Small {
        whole(draws, &mut draft);
    }
    if style == Style::Huge && draws.once_in(2) {
        draft.locks = long_lock(draws, words);
    }
    draft
}

/// One lock over an area, or over nearly all of it, most often with room for a block behind it.
fn long_lock(draws: &mut Draws, words: [usize; 2]) -> Vec<Record> {
    let area = draws.below(2);
    let before = draws.below(3) * draws.below(8);
    let behind = if draws.once_in(3) { 0 } else { 16 + draws.below(80) };
    vec![draft::lock(area as u8, before, words[area] - before - behind)]
}

/// One profile of the first is a whole area, so that there is room for much.
fn whole(draws: &mut Draws, draft: &mut Draft) {
    let which = draws.below(draft.profiles.len());
    let record = &mut draft.profiles[which];
    let words = draft.words[usize::from(record[2])] as u16;
    record[3..5].copy_from_slice(&[0, 0]);
    record[5..7].copy_from_slice(&words.to_be_bytes());
}

fn features(draws: &mut Draws) -> (u8, u8) {
    let all = draws.once_in(4);
    let mut bits = LEFT_OUT.map(|often| all || !draws.once_in(often));
    bits[4] &= bits[3];
    let byte = |bits: &[bool]| bits.iter().rev().fold(0, |byte, &bit| 2 * byte + u8::from(bit));
    (byte(&bits[..6]), byte(&bits[6..]))
}

fn words(draws: &mut Draws, style: Style) -> usize {
    match style {
        Style::Small if draws.once_in(10) => 0,
        Style::Small => 4 + draws.below(37),
        Style::Roomy | Style::Full => 64 + draws.below(12),
        Style::Huge if draws.once_in(2) => MOST_WORDS,
        Style::Huge => 300 + draws.below(MOST_WORDS - 300),
    }
}
