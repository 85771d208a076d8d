//! A drawn sheet with one record that breaks a rule, or two at once.

use super::values;
use crate::cases::draft::{self, Draft, Record};
use crate::cases::draws::Draws;
use crate::standard::sheet::MOST_OF_A_KIND;

pub struct Case {
    pub sheet: Vec<u8>,
    /// The way in which a value is wrong, if one is.
    pub value: Option<&'static str>,
}

/// What is broken. Values are as they are drawn where nothing else is said.
#[derive(Clone, Copy, PartialEq)]
enum Rule {
    Unknown,
    Order,
    Many,
    Cut,
    Value,
}

use Rule::*;

pub fn drawn(draws: &mut Draws) -> Case {
    let fine = |sheet: Vec<u8>| Case { sheet, value: None };
    match draws.below(16) {
        0..=3 => fine(any(draws).bytes()),
        4 => {
            let count = 1 + draws.below(5);
            fine([any(draws).bytes(), draws.bytes(count)].concat())
        }
        // A record is missing.
        5 => {
            let records = any(draws).records();
            let count = draws.below(records.len() + 1);
            fine(records[..count].concat())
        }
        _ => {
            let rules: &[Rule] = draws.one_of(&[
                &[Unknown][..],
                &[Order],
                &[Many],
                &[Cut],
                &[Value],
                &[Value],
                &[Value],
                &[Value],
                &[Order, Many],
                &[Order, Cut],
                &[Order, Value],
                &[Many, Cut],
                &[Many, Value],
                &[Cut, Value],
                &[Order, Many, Value],
            ]);
            broken(draws, rules)
        }
    }
}

/// Few of each kind, sometimes as many as there can be.
fn any(draws: &mut Draws) -> Draft {
    let mut count = || {
        if draws.once_in(12) {
            MOST_OF_A_KIND
        } else {
            draws.below(4)
        }
    };
    let counts = [count(), count(), count()];
    with(draws, counts)
}

fn with(draws: &mut Draws, [keys, profiles, locks]: [usize; 3]) -> Draft {
    let enough = |words: usize| if locks == MOST_OF_A_KIND { words.max(40) } else { words };
    let words = [draft::words(draws), draft::words(draws)].map(enough);
    Draft {
        features: draft::features(draws),
        modes: draws.byte() % 16,
        words,
        keys: draft::keys(draws, keys),
        profiles: draft::profiles(draws, profiles, words),
        locks: draft::locks(draws, locks, words),
    }
}

fn broken(draws: &mut Draws, rules: &[Rule]) -> Case {
    let has = |rule: Rule| rules.contains(&rule);
    let kind = match (has(Many), has(Order)) {
        (true, true) => 3 + draws.byte() % 2,
        (true, false) => 3 + draws.byte() % 3,
        _ => 1 + draws.byte() % 5,
    };
    let mut draft = any(draws);
    if has(Many) || kind > 2 && draws.once_in(2) {
        // The kind's own records, and for an order that is broken one of a higher kind.
        let own = if has(Many) { MOST_OF_A_KIND } else { 1 + draws.below(3) };
        let counts = [3, 4, 5].map(|k| if k == kind { own } else { 1 + draws.below(2) });
        draft = with(draws, counts);
    }
    let before = front(draws, &draft, kind, has(Order), has(Many));
    let last = before.iter().rev().find(|record| record[0] == kind);
    let way = draws.one_of(values::WAYS[usize::from(kind) - 1].1);
    let mut record = match has(Value) {
        true => values::wrong(draws, way, last, draft.words),
        false => right(draws, &draft, kind, last),
    };
    if has(Unknown) {
        let any = 7 + draws.byte() % 249;
        record[0] = draws.one_of(&[0, 7, 8, 255, any]);
    }
    let mut sheet = [before.concat(), record.clone()].concat();
    if has(Cut) {
        sheet.truncate(sheet.len() - 1 - draws.below(record.len() - 1));
    } else {
        let rest = draft.records();
        let from = draws.below(rest.len() + 1);
        sheet.extend(rest[from..].concat());
        sheet.push(6);
    }
    Case {
        sheet,
        value: has(Value).then_some(way),
    }
}

/// The records before the one that is broken.
fn front(draws: &mut Draws, draft: &Draft, kind: u8, order: bool, many: bool) -> Vec<Record> {
    let records = draft.records();
    if !order {
        // 01 is first and 02 second; of the kind itself all before it.
        let upto = |record: &&Record| record[0] < kind || kind > 2 && record[0] == kind;
        return records.iter().filter(upto).cloned().collect();
    }
    match kind {
        _ if many => records,
        1 => records[..1 + draws.below(records.len())].to_vec(),
        2 if draws.once_in(3) => Vec::new(),
        2 => records[..2 + draws.below(records.len() - 1)].to_vec(),
        5 => records[..draws.below(2)].to_vec(),
        _ if draws.once_in(3) => records[..draws.below(2)].to_vec(),
        _ => records,
    }
}

/// A record that keeps its rule, as far as there can be one behind the last.
fn right(draws: &mut Draws, draft: &Draft, kind: u8, last: Option<&Record>) -> Record {
    let number = last.map_or(0, |last| last[1].saturating_add(1));
    let area = u8::from(draft.words[0] == 0 || kind == 5);
    match kind {
        1 => vec![1, draft::features(draws), draws.byte() % 16],
        2 => draft.records()[1].clone(),
        3 => draft::key(number, true, 0xffff, draws.array(), draws.array()),
        4 => draft::profile(number, area, 0, 1),
        _ => draft::lock(area, draft.words[1].saturating_sub(1), 1),
    }
}
