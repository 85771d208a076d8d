//! Sheets: the examples of the papers, each kind byte in each place, each cut, and drawn sheets, of which most are
//! refused, often by two rules that one record breaks at once.

mod broken;
mod values;

use super::draft::{self, Draft};
use super::draws::Draws;
use super::script::Script;
use crate::bench::words::shown;
use crate::hex::{bytes, hex};
use crate::standard::sheet::{in_order, read, take, Refusal, Setup, BODIES, MOST_OF_A_KIND};

const DRAWN: usize = 24_000;

/// At least so often a sheet is accepted; each number is given; each value is wrong alone; two rules are broken at
/// once by a record of each kind that can; an accepted sheet is at an edge.
const ACCEPTED: usize = 4000;
const EACH_NUMBER: usize = 500;
const EACH_VALUE: usize = 60;
const EACH_PAIR: usize = 60;
const EACH_EDGE: usize = 100;

/// Short ones from paper 01 and its readings.
const SHORT: [(&str, &str); 10] = [
    ("010000020000000006", "ok"),
    ("-", "refused 30 at 0"),
    ("02", "refused 32 at 0"),
    ("020000000006", "refused 32 at 0"),
    ("0100", "refused 30 at 0"),
    ("010000", "refused 30 at 3"),
    ("00", "refused 31 at 0"),
    ("07", "refused 31 at 0"),
    ("01000006", "refused 32 at 3"),
    ("01000002000000000606", "refused 35 at 9"),
];

pub fn all(script: &mut Script) {
    for (sheet, meant) in SHORT {
        script.expect(&format!("sheet {sheet}"), meant);
    }
    let mut draws = Draws::from(2);
    for _ in 0..3 {
        let small = with_each(&mut draws, 2);
        each_kind(script, &mut draws, &small);
        each_cut(script, &mut draws, &small);
    }
    let longest = with_each(&mut draws, 16).bytes();
    script.holds("the longest sheet has 809 bytes", longest.len() == 809);
    play(script, &mut draws, &longest);
    for _ in 0..DRAWN {
        let case = broken::drawn(&mut draws);
        let numbers = play(script, &mut draws, &case.sheet);
        if let (Some(way), [33]) = (case.value, &numbers[..]) {
            script.count(format!("alone wrong: {way}"));
        }
    }
    held(script);
}

/// A sheet with so many of each, in two areas of all words.
fn with_each(draws: &mut Draws, count: usize) -> Draft {
    let words = [draft::MOST_WORDS; 2];
    let mut locks = Vec::new();
    while locks.len() < count {
        locks = draft::locks(draws, count, words);
    }
    Draft {
        features: draft::features(draws),
        modes: draws.byte() % 16,
        words,
        keys: draft::keys(draws, count),
        profiles: draft::profiles(draws, count, words),
        locks,
    }
}

/// Each record's kind byte takes each value from 0 to 8, and 255.
fn each_kind(script: &mut Script, draws: &mut Draws, draft: &Draft) {
    let mut place = 0;
    for record in draft.records() {
        for kind in (0..=8).chain([255]) {
            let mut sheet = draft.bytes();
            sheet[place] = kind;
            play(script, draws, &sheet);
        }
        place += record.len();
    }
}

fn each_cut(script: &mut Script, draws: &mut Draws, draft: &Draft) {
    let sheet = draft.bytes();
    for length in 0..=sheet.len() {
        play(script, draws, &sheet[..length]);
    }
}

/// The numbers that a sheet could be refused by at its place, in their order; none where it is accepted.
fn play(script: &mut Script, draws: &mut Draws, sheet: &[u8]) -> Vec<u8> {
    let answer = script.say(&format!("sheet {}", shown(sheet)));
    script.count("sheet");
    match read(sheet) {
        Ok(setup) => {
            script.holds(&format!("{answer} is not ok"), answer == "ok");
            script.count("accepted");
            edges(script, &setup);
            answers(script, draws, &setup);
            Vec::new()
        }
        Err(refusal) => {
            let numbers = faults(sheet, &refusal);
            let meant = format!("refused {} at {}", numbers[0], refusal.place);
            script.holds(&format!("{answer}, not {meant}"), answer == meant);
            script.count(format!("refused {}", numbers[0]));
            let kind = sheet.get(refusal.place).copied().unwrap_or(0);
            for (i, a) in numbers.iter().enumerate() {
                for b in &numbers[i + 1..] {
                    script.count(format!("kind {kind}: {a} before {b}"));
                    script.count(format!("{a} before {b}"));
                }
            }
            numbers
        }
    }
}

/// Each rule by itself, at the record that a sheet is refused at. Of a body that is cut the missing bytes count as
/// zeros.
fn faults(sheet: &[u8], refusal: &Refusal) -> Vec<u8> {
    let before = &sheet[..refusal.place];
    let Some(&kind) = sheet.get(refusal.place) else {
        return vec![30];
    };
    if before.last() == Some(&6) && refusal.number == 35 {
        return vec![35];
    }
    let kinds = kinds(before);
    let length = BODIES
        .iter()
        .find(|(known, _)| *known == kind)
        .map(|(_, length)| *length);
    let mut body = sheet[refusal.place + 1..].to_vec();
    let cut = length.is_some_and(|length| body.len() < length);
    body.resize(length.unwrap_or(0), 0);
    let mut setup = read(&[before, &[6]].concat()).unwrap_or_default();
    let broken = [
        (31, length.is_none()),
        (32, !in_order(&kinds, kind)),
        (34, kinds.iter().filter(|k| **k == kind).count() == MOST_OF_A_KIND),
        (30, cut),
        (33, length.is_some() && kind != 6 && !take(&mut setup, kind, &body)),
    ];
    broken
        .into_iter()
        .filter(|(_, broken)| *broken)
        .map(|(number, _)| number)
        .collect()
}

fn kinds(mut sheet: &[u8]) -> Vec<u8> {
    let mut kinds = Vec::new();
    while let [kind, rest @ ..] = sheet {
        let (_, length) = BODIES.iter().find(|(known, _)| known == kind).expect("good records");
        kinds.push(*kind);
        sheet = &rest[*length..];
    }
    kinds
}

/// What an accepted sheet shows of the rules from within.
fn edges(script: &mut Script, setup: &Setup) {
    let ends = |area: u8, end: usize| end == setup.words[usize::from(area)];
    let locks = &setup.locks;
    let profiles = || setup.profiles.iter().flatten();
    for (what, shown) in [
        ("area 0 has 1024 words", setup.words[0] == 1024),
        ("area 1 has 1024 words", setup.words[1] == 1024),
        ("16 keys", setup.keys.len() == 16),
        ("16 profiles", profiles().count() == 16),
        ("16 locks", locks.len() == 16),
        ("KeyID 0", setup.keys.iter().any(|key| key.id == 0)),
        ("KeyID 255", setup.keys.iter().any(|key| key.id == 255)),
        (
            "KeyIDs with no gap",
            setup.keys.windows(2).any(|two| two[0].id + 1 == two[1].id),
        ),
        ("profile 15", setup.profiles[15].is_some()),
        (
            "a profile ends with its area",
            profiles().any(|p| ends(p.area.number(), p.base + p.words)),
        ),
        ("a profile of one word", profiles().any(|p| p.words == 1)),
        (
            "a lock ends with its area",
            locks.iter().any(|l| ends(l.area.number(), l.first + l.words)),
        ),
        (
            "locks with no gap",
            locks
                .windows(2)
                .any(|two| two[0].area == two[1].area && two[0].first + two[0].words == two[1].first),
        ),
        (
            "locks in both areas",
            locks.windows(2).any(|two| two[0].area != two[1].area),
        ),
        ("IAM without IAM3", setup.features[3] && !setup.features[4]),
    ] {
        if shown {
            script.count(format!("accepted: {what}"));
        }
    }
}

/// What the tag then is: a key, words behind a profile, and now and then both areas.
fn answers(script: &mut Script, draws: &mut Draws, setup: &Setup) {
    if draws.once_in(16) {
        script.say("areas");
    }
    let Some(key) = setup.keys.get(draws.below(setup.keys.len().max(1))) else {
        return;
    };
    let (ichallenge, tag_draws) = (hex(&draws.array::<10>()), hex(&draws.array::<10>()));
    script.say(&format!("message 00{:02x}{ichallenge} {tag_draws}", key.id));
    let there: Vec<usize> = (0..16).filter(|&number| setup.profiles[number].is_some()).collect();
    if !there.is_empty() {
        let (first, profile) = (draws.one_of(&[0x20u8, 0x28, 0x30, 0x38]), draws.one_of(&there));
        let fields = [(profile << 4) as u8, draws.below(4) as u8, draws.below(4) as u8];
        let message = hex(&[&[first, key.id][..], &bytes(&ichallenge), &fields].concat());
        script.say(&format!("message {message} {tag_draws}"));
    }
}

fn held(script: &mut Script) {
    script.often("sheet", 20_000);
    script.often("accepted", ACCEPTED);
    for number in 30..=35 {
        script.often(&format!("refused {number}"), EACH_NUMBER);
    }
    for way in values::WAYS.iter().flat_map(|(_, ways)| ways.iter()) {
        script.often(&format!("alone wrong: {way}"), EACH_VALUE);
    }
    script.often("31 before 32", EACH_PAIR);
    for (a, b, kinds) in [
        (32, 34, 3..=4),
        (32, 30, 1..=5),
        (32, 33, 1..=5),
        (34, 30, 3..=5),
        (34, 33, 3..=5),
        (30, 33, 1..=5),
    ] {
        for kind in kinds {
            script.often(&format!("kind {kind}: {a} before {b}"), EACH_PAIR);
        }
    }
    for edge in [
        "area 0 has 1024 words",
        "area 1 has 1024 words",
        "16 keys",
        "16 profiles",
        "16 locks",
        "KeyID 0",
        "KeyID 255",
        "KeyIDs with no gap",
        "profile 15",
        "a profile ends with its area",
        "a profile of one word",
        "a lock ends with its area",
        "locks with no gap",
        "locks in both areas",
        "IAM without IAM3",
    ] {
        script.often(&format!("accepted: {edge}"), EACH_EDGE);
    }
}
