//! Sheets that keep every rule, drawn record by record, often at the edges of a rule.

use super::draws::Draws;

pub type Record = Vec<u8>;

pub const MOST_WORDS: usize = 1024;

pub struct Draft {
    pub features: u8,
    pub modes: u8,
    pub words: [usize; 2],
    pub keys: Vec<Record>,
    pub profiles: Vec<Record>,
    pub locks: Vec<Record>,
}

impl Draft {
    /// All records but the end.
    pub fn records(&self) -> Vec<Record> {
        let sizes = self.words.map(|words| (words as u16).to_be_bytes()).concat();
        let front = [vec![1, self.features, self.modes], [&[2][..], &sizes].concat()];
        [&front[..], &self.keys, &self.profiles, &self.locks].concat()
    }

    pub fn bytes(&self) -> Vec<u8> {
        [&self.records().concat()[..], &[6]].concat()
    }
}

pub fn key(id: u8, mac: bool, mpi: u16, enc_key: [u8; 16], mac_key: [u8; 16]) -> Record {
    let mac_key = if mac { mac_key } else { [0; 16] };
    [&[3, id, u8::from(mac)][..], &mpi.to_be_bytes(), &enc_key, &mac_key].concat()
}

pub fn profile(number: u8, area: u8, base: usize, words: usize) -> Record {
    [&[4, number, area][..], &two(base), &two(words)].concat()
}

pub fn lock(area: u8, first: usize, words: usize) -> Record {
    [&[5, area][..], &two(first), &two(words)].concat()
}

fn two(word: usize) -> [u8; 2] {
    (word as u16).to_be_bytes()
}

/// Features of which IAM3 never stands without IAM1 and IAM2.
pub fn features(draws: &mut Draws) -> u8 {
    let bits = draws.byte() % 64;
    if bits & 0x18 == 0x10 {
        bits | 8
    } else {
        bits
    }
}

/// No word, one, all, or any number.
pub fn words(draws: &mut Draws) -> usize {
    match draws.below(16) {
        0 => 0,
        1 => 1,
        2 | 3 => MOST_WORDS,
        4..=8 => draws.below(MOST_WORDS + 1),
        _ => draws.below(80),
    }
}

/// Rising numbers below a limit: one after the other from 0 on, up to the last, or anywhere.
fn rising(draws: &mut Draws, count: usize, limit: usize) -> Vec<u8> {
    let mut numbers: Vec<usize> = match draws.below(4) {
        0 => (0..count).collect(),
        1 => (limit - count..limit).collect(),
        _ => {
            let mut all: Vec<usize> = (0..limit).collect();
            (0..count).map(|_| all.remove(draws.below(all.len()))).collect()
        }
    };
    numbers.sort();
    numbers.into_iter().map(|number| number as u8).collect()
}

/// Three of four have a MAC key, and most of the rights.
pub fn keys(draws: &mut Draws, count: usize) -> Vec<Record> {
    let ids = rising(draws, count, 256);
    let record = |id| {
        let mpi = u16::from_be_bytes(draws.array()) | u16::from_be_bytes(draws.array());
        key(id, !draws.once_in(4), mpi, draws.array(), draws.array())
    };
    ids.into_iter().map(record).collect()
}

/// In the area that is drawn, or in the other where that has no word; many are the whole area or end with it.
pub fn profiles(draws: &mut Draws, count: usize, words: [usize; 2]) -> Vec<Record> {
    if words == [0, 0] {
        return Vec::new();
    }
    let numbers = rising(draws, count, 16);
    let record = |number| {
        let drawn = draws.below(2);
        let area = if words[drawn] == 0 { 1 - drawn } else { drawn };
        let base = if draws.once_in(3) { 0 } else { draws.below(words[area]) };
        let left = words[area] - base;
        let length = match draws.below(8) {
            0..=3 => left,
            4 => 1,
            _ => 1 + draws.below(left),
        };
        profile(number, area as u8, base, length)
    };
    numbers.into_iter().map(record).collect()
}

/// One behind the other, some with no gap between them; most of few words, some long.
pub fn locks(draws: &mut Draws, count: usize, words: [usize; 2]) -> Vec<Record> {
    let first_area = draws.below(count + 1);
    let mut locks = Vec::new();
    for (area, count) in [first_area, count - first_area].into_iter().enumerate() {
        let mut free = 0;
        for left in (1..=count).rev() {
            // So that each of the others has a word of its own.
            let Some(room) = words[area].checked_sub(free + left) else {
                break;
            };
            let gap = if draws.once_in(3) {
                0
            } else {
                draws.below(room / left + 1)
            };
            let length = match draws.below(4) {
                0 => 1 + draws.below(room - gap + 1),
                _ => 1 + draws.below(4.min(room - gap + 1)),
            };
            locks.push(lock(area as u8, free + gap, length));
            free += gap + length;
        }
    }
    locks
}
