//! Which words a TAM2 or an IAM3 asks for: drawn until they are as the checks that are to fail want them.

use super::checks::{Check, Sent};
use crate::cases::draws::Draws;
use crate::standard::frames::{self, Fields, Kind};
use crate::standard::sheet::{Key, Setup};
use crate::standard::tag::Tag;

/// So many draws are tried; where none is as wished, the last one is taken.
const TRIES: usize = 200;

/// The checks that fields alone decide.
const BY_FIELDS: [Check; 8] = [
    Check::Size,
    Check::Rev,
    Check::Profile,
    Check::Right,
    Check::Memory,
    Check::Mode,
    Check::MacKey,
    Check::Lock,
];

pub fn drawn(draws: &mut Draws, tag: &Tag, kind: Kind, key: &Key, failing: &[Check]) -> Fields {
    let mut f = Fields::default();
    for _ in 0..TRIES {
        f = any(draws, &tag.setup, failing);
        f.keyid = u128::from(key.id);
        let sent = Sent::asking(tag, kind, f, *key);
        let judged = |check: &&Check| super::checks::of(kind).contains(check);
        if BY_FIELDS
            .iter()
            .filter(judged)
            .all(|&check| sent.fails(check) == failing.contains(&check))
            && shows(f, failing)
        {
            break;
        }
    }
    f
}

/// Filler can only be wrong where there is some, a MAC where there is one.
fn shows(f: Fields, failing: &[Check]) -> bool {
    let (size, count) = (f.blocksize as usize, f.blockcount as usize);
    let filled = frames::header_bits(size) / 8 + frames::data_bytes(size, count);
    let filler = filled % 16 != 0;
    (filler || !failing.contains(&Check::Filler)) && (matches!(f.protmode, 2 | 3) || !failing.contains(&Check::Mac))
}

fn any(draws: &mut Draws, setup: &Setup, failing: &[Check]) -> Fields {
    let there: Vec<usize> = (0..16).filter(|&p| setup.profiles[p].is_some()).collect();
    let profile = match failing.contains(&Check::Profile) || there.is_empty() {
        true => draws.below(16),
        false => {
            // Of two the one with more words, so that long blocks find room.
            let words = |&p: &usize| setup.profiles[p].map_or(0, |profile| profile.words);
            [draws.one_of(&there), draws.one_of(&there)]
                .into_iter()
                .max_by_key(words)
                .expect("two")
        }
    };
    let blocksize = draws.below(2);
    let blocks = match draws.below(4) {
        // With the most filler.
        0 if failing.contains(&Check::Filler) => draws.one_of(&[7, 15]),
        0 => 16,
        _ => 1 + draws.below(16),
    };
    let protmode = match failing.contains(&Check::Mode) {
        true => draws.below(16),
        false => draws.below(4),
    };
    Fields {
        blocksize: blocksize as u128,
        rev: draws.below(2) as u128,
        profile: profile as u128,
        offset: offset(
            draws,
            setup,
            profile,
            [4, 1][blocksize],
            blocks,
            failing.contains(&Check::Lock),
        ) as u128,
        blockcount: blocks as u128 - 1,
        protmode: protmode as u128,
        ..Fields::default()
    }
}

/// Inside the profile; its last place, and one behind that; at the edges of a lock; one that fits but for a bit; the
/// largest.
fn offset(draws: &mut Draws, setup: &Setup, profile: usize, step: usize, blocks: usize, locked: bool) -> usize {
    let Some(profile) = setup.profiles[profile] else {
        return draws.below(4096);
    };
    let last = (profile.words / step).saturating_sub(blocks);
    let inside = draws.below(last + 1);
    let locks: Vec<_> = setup.locks.iter().filter(|lock| lock.area == profile.area).collect();
    match draws.below(10) {
        0 => last,
        1 | 2 => last + 1,
        3 if draws.once_in(2) => 4095,
        3 => inside | 1 << draws.below(12),
        4..=9 if !locks.is_empty() && (locked || draws.once_in(2)) => {
            let lock = draws.one_of(&locks);
            let end = lock.first + lock.words;
            // The block ends before the lock or on its first word, starts within it, on its last word or behind it.
            let starts = [
                lock.first + draws.below(lock.words),
                lock.first.saturating_sub(blocks * step),
                (lock.first + 1).saturating_sub(blocks * step),
                end - 1,
                end,
            ];
            (draws.one_of(&starts).saturating_sub(profile.base) / step).min(4095)
        }
        _ => inside,
    }
}
