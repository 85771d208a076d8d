//! What the lines have shown, and whether it is enough.

use super::faults::COMMANDS;
use crate::cases::script::Script;
use crate::cases::NUMBERS;

/// At least so often each error, each answer and each state is shown, and a command comes to each of its ends.
const EACH: usize = 3;
const SILENT: usize = 40;
const ERRORS_IN_ALL: usize = 300;

/// Of the errors two are not here: no script can show that the system gives no random bytes, or that its input can't
/// be read.
const ERRORS: [&str; 17] = [
    "unknown command",
    "unknown message",
    "unknown form",
    "word missing",
    "word too many",
    "not hex",
    "odd number of hex digits",
    "over 4096 bytes",
    "not a number",
    "number over 65535",
    "not 16 bytes",
    "area 0 or 1",
    "room over 4096",
    "no tag yet",
    "no keys yet",
    "no such number",
    "line over 65536 bytes",
];

const ANSWERS: [&str; 9] = [
    "ok",
    "area",
    "reply",
    "message",
    "out",
    "commands:",
    "accepted proved",
    "accepted unproved",
    "accepted -",
];

pub fn held(script: &mut Script) {
    script.often("no answer", SILENT);
    script.often("error", ERRORS_IN_ALL);
    let chance = script.counted("reply by chance");
    script.holds(&format!("{chance} replies by chance"), chance == 0);
    script.often("draws of the system", EACH);
    for error in ERRORS {
        // Long lines are few.
        let least = if error.starts_with("line") { EACH - 1 } else { EACH };
        script.often(&format!("error: {error}"), least);
    }
    for number in NUMBERS.into_iter().flatten() {
        script.often(&format!("explained {number}"), 1);
    }
    for answer in ANSWERS {
        script.often(answer, EACH);
    }
    for (name, _) in COMMANDS {
        script.often(&format!("{name} right"), EACH);
        script.often(&format!("{name} error"), EACH);
    }
}
