//! What the calls show.

use super::checks::{Call, Check, Sent};
use crate::cases::script::Script;
use crate::standard::frames::Kind;
use crate::standard::tag::Tag;

/// What a call shows, before it is made.
pub struct Seen {
    what: Vec<String>,
    alone: bool,
}

impl Seen {
    pub fn of(tag: &Tag, kind: Option<Kind>, call: &Call, failing: &[Check], number: u8) -> Seen {
        let mut what = vec!["message".to_string()];
        what.push(match number {
            0 => format!("{:?} accepted", kind.expect("of a kind")),
            _ => format!("refused {number}"),
        });
        let name = kind.map_or("none".to_string(), |kind| format!("{kind:?}"));
        for (i, &a) in failing.iter().enumerate() {
            for &b in &failing[i + 1..] {
                what.push(format!("{name}: {a:?} before {b:?}"));
            }
        }
        if let [check] = failing {
            what.push(format!("{name}: {check:?} alone"));
        }
        what.push(format!("{}: {name} {number}", tag.session.name()));
        if let Some(kind) = kind {
            fields(tag, kind, call, failing, &mut what);
        }
        Seen {
            what,
            alone: failing.len() == 1,
        }
    }

    /// Where a message was damaged counts where nothing else was wrong with it.
    pub fn count(self, script: &mut Script, hit: &[String], answer: &str) {
        for what in self.what {
            script.count(what);
        }
        if self.alone {
            for place in hit {
                script.count(format!("alone: {place}"));
            }
        }
        if let Some((_, purpose)) = answer.split_once(" purpose ") {
            script.count(format!("Purpose {purpose}"));
        }
    }
}

/// Forms, edges and places of a message.
fn fields(tag: &Tag, kind: Kind, call: &Call, failing: &[Check], what: &mut Vec<String>) {
    let sent = Sent::new(tag, kind, &call.message);
    let (f, setup) = (sent.f, &tag.setup);
    let named = setup.keys.iter().position(|key| u128::from(key.id) == f.keyid);
    let asks = matches!(kind, Kind::Tam2 | Kind::Iam3);
    if failing.is_empty() {
        if asks {
            let rev = if kind == Kind::Tam2 { f.rev } else { 1 };
            let form = format!("{kind:?} BlockSize {} Rev {rev} ProtMode {}", f.blocksize, f.protmode);
            what.push(format!("{form} BlockCount {}", f.blockcount));
            what.push(format!("profile {} used by {kind:?}", f.profile));
            what.push(format!("message of {} bytes", call.message.len()));
        } else if let (Kind::Tam1 | Kind::Iam1 | Kind::Mam1, Some(at)) = (kind, named) {
            what.push(format!("{kind:?} for record {at}"));
            if f.keyid > 240 {
                what.push(format!("{kind:?} for a KeyID above 240"));
            }
        }
    }
    let (Some(asked), true) = (sent.asked(), asks) else {
        return;
    };
    let profile = setup.profiles[f.profile as usize].expect("it is there");
    let (start, end, profile_end) = (asked.addresses.start, asked.addresses.end, profile.base + profile.words);
    let locks = || {
        setup
            .locks
            .iter()
            .enumerate()
            .filter(|(_, lock)| lock.area == profile.area)
    };
    let mut edge = |text: &str, shown: bool| {
        if shown {
            what.push(format!("{kind:?} {text}"));
        }
    };
    if failing.is_empty() {
        edge("ends with its profile", end == profile_end);
        edge("above word 255", start > 255);
        edge("in a profile of 1024 words", profile.words == 1024);
        edge("ends before a lock", locks().any(|(_, lock)| end == lock.first));
        edge(
            "starts behind a lock",
            locks().any(|(_, lock)| start == lock.first + lock.words),
        );
    }
    if failing == [Check::Memory] {
        let step = if f.blocksize == 0 { 4 } else { 1 };
        edge(
            "ends one block past its profile",
            end > profile_end && end - profile_end <= step,
        );
        edge("ends far past its profile", end > profile_end + 1024);
    }
    if failing == [Check::Lock] {
        edge(
            "ends on the first word of a lock",
            locks().any(|(_, lock)| end == lock.first + 1),
        );
        edge(
            "starts on the last word of a lock",
            locks().any(|(_, lock)| start + 1 == lock.first + lock.words),
        );
        edge(
            "starts on the last word of a lock of over 700 words",
            locks().any(|(_, lock)| lock.words > 700 && start + 1 == lock.first + lock.words),
        );
        edge("is locked above word 255", start > 255);
        edge(
            "is in a lock of over 255 words",
            locks().any(|(_, lock)| lock.words > 255 && lock.first <= start),
        );
        let inside = |lock: &crate::standard::memory::Lock| lock.first < end && start < lock.first + lock.words;
        for (at, _) in locks().filter(|(_, lock)| inside(lock)) {
            edge(&format!("is refused by lock {at}"), true);
        }
    }
}

/// In this state a message was given this number, or the tag was powered up; then came the proof for the challenge that
/// was held.
pub fn survival(script: &mut Script, state: &str, what: &str, number: u8) {
    let refused = if number == 0 { "accepted" } else { "refused" };
    script.count(format!("{state}: {what} {refused}, then the proof"));
}
