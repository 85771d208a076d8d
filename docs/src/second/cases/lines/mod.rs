//! Lines: words, blanks and comments in all their looks; every way in which a line can't be read; and between them
//! commands whose answers show that such a line leaves all as it was.

mod faults;
mod tally;
mod typist;

use super::annex_f;
use super::draws::Draws;
use super::script::Script;
use crate::bench::commands::{HELP, NUMBERS};
use crate::bench::words::{shown, LONGEST_LINE, MOST_BYTES};
use crate::hex::hex;
use typist::{Aside, Typist};

pub fn all(script: &mut Script) {
    let mut typist = Typist::new(script, Draws::from(5));
    nothing_yet(&mut typist);
    let faults = faults::all(&mut typist.draws);
    typist.asides(faults);
    typist.asides(explained());
    for _ in 0..4 {
        let mut examples = Script::default();
        annex_f::all(&mut examples);
        typist.again(examples.text());
        ciphers(&mut typist);
    }
    lent(&mut typist);
    typist.rest();
    no_text(&mut typist);
    long_lines(&mut typist);
    tally::held(script);
}

/// Keys and blocks, forms and rooms.
fn ciphers(typist: &mut Typist) {
    let (key, iv) = (hex(&typist.draws.array::<16>()), hex(&typist.draws.array::<16>()));
    let data = hex(&typist.draws.array::<32>());
    let mut calls = Script::default();
    for text in [
        format!("aes enc {key} {iv}"),
        format!("aes dec {key} {iv}"),
        format!("cbc enc_aes {iv} {key} {data} 32"),
        format!("cbc dec_aes {iv} {key} {data} 00032"),
        format!("cbc enc_aes_inv {iv} {key} {data} 4096"),
        format!("cbc dec_aes_inv {iv} {key} {data} 33"),
        format!("cbc enc_aes {iv} {key} - 0"),
        format!("cbc enc_aes {iv} {key} {data} 31"),
        format!("cmac {key} {data} 12"),
        format!("cmac {key} {data} 0011"),
        format!("cmac {key} - 12"),
    ] {
        calls.say(&text);
    }
    typist.again(calls.text());
}

/// Draws, rooms and areas of other lengths; draws of the system, where the answer is of none; zeros before a number.
fn lent(typist: &mut Typist) {
    let most = "a5".repeat(MOST_BYTES);
    let draws = hex(&typist.draws.array::<10>());
    let zeros = "00".repeat(18);
    for (text, meant) in [
        ("power".to_string(), "ok"),
        (format!("message 4001 {draws} 171"), "refused 7 state Initial"),
        (format!("message 4001 {draws}00"), "refused 7 state Initial"),
        ("message 4001 -".to_string(), "refused 7 state Initial"),
        ("message 4001 * 0".to_string(), "refused 7 state Initial"),
        (
            format!("message 4001 {draws} 000172"),
            &format!("reply {draws} state IAM-Init purpose -"),
        ),
        ("message 5000 * 4096".to_string(), "refused 1 state Initial"),
        ("message 5000".to_string(), "refused 5 state Initial"),
        (format!("area 1 {most}"), "ok"),
        ("message 4001 *".to_string(), "refused 7 state Initial"),
        ("area 1 -".to_string(), "ok"),
        (format!("area 00 {zeros}"), "ok"),
        ("areas".to_string(), &format!("area 0 {zeros} area 1 -")),
        ("message -".to_string(), "refused 1 state Initial"),
    ] {
        typist.expect(&text, meant);
    }
}

/// Before there is a tag or a key. A field that is wrong is told first.
fn nothing_yet(typist: &mut Typist) {
    let (no_tag, no_keys) = ("error: no tag yet", "error: no keys yet");
    for (text, meant) in [
        ("areas", "area 0 - area 1 -"),
        ("power", no_tag),
        ("message 4000", no_tag),
        ("message - * 0", no_tag),
        ("message 4000 0g", "error: not hex"),
        ("message 4000 - 4097", "error: room over 4096"),
        ("power 0", "error: word too many"),
        ("build iam1 7", "message 4007"),
        ("build iam1 256", "refused 24"),
        ("build tam1 0 00010203040506070809", "message 000000010203040506070809"),
        ("build mam1 255 -", "refused 24"),
        ("build tam2 0 0 0 - 0 0 0 0", no_keys),
        ("build tam2 0 0 0 - 0 0 0 65536", "error: number over 65535"),
        ("build iam2 16 - -", no_keys),
        ("build iam3 0 0 0 0 0 0 - - -", no_keys),
        ("build mam2 0 - -", no_keys),
        ("judge - -", no_keys),
        ("judge 0 -", "error: odd number of hex digits"),
        ("area 1 C0DE", "ok"),
        ("sheet 0100", "refused 30 at 0"),
        ("message -", no_tag),
        ("areas", "area 0 - area 1 c0de"),
        ("keys 000102030405060708090a0b0c0d0e0f 00", "error: not 16 bytes"),
        ("judge 4000 -", no_keys),
        ("keys 000102030405060708090a0b0c0d0e0f -", "ok"),
        (
            "judge 4000 00010203040506070809",
            "accepted data - challenge 00010203040506070809 -",
        ),
        ("judge 4000 -", "refused 20"),
        ("power", no_tag),
        ("help", HELP.trim_end()),
    ] {
        typist.expect(text, meant);
    }
}

/// Each number, with zeros before it or not, and what is none.
fn explained() -> Vec<Aside> {
    let numbers = NUMBERS.lines().enumerate().map(|(i, line)| {
        let number = line.split(' ').next().unwrap_or_default();
        (format!("{}{number}", "0".repeat(i % 3)), line)
    });
    let none = [
        "0",
        "9",
        "19",
        "25",
        "29",
        "36",
        "000",
        "65535",
        "0000000000000000000000000256",
    ];
    let others = none.map(|number| (number.to_string(), "error: no such number"));
    let aside = |(number, meant): (String, &str)| Aside::new(&format!("explain {number}"), meant);
    let help = ["help"; 3].map(|text| Aside::new(text, HELP.trim_end()));
    numbers.chain(others).map(aside).chain(help).collect()
}

/// Bytes that are no text, and blanks that are none here.
fn no_text(typist: &mut Typist) {
    for (line, meant) in [
        (&b"\xff\xfe\x00"[..], Some("unknown command")),
        (b"areas\x00", Some("unknown command")),
        (b"\xc3\xa4reas", Some("unknown command")),
        (b"areas\x0b", Some("unknown command")),
        (b"sheet\xa000", Some("unknown command")),
        (b"area 0 \xc3\xa4", Some("not hex")),
        (b"area \xd9\xa1 00", Some("not a number")),
        (b"explain 1\x0c", Some("not a number")),
        (b"message 00\x80", Some("not hex")),
        (b"build \x00", Some("unknown message")),
        (b"aes \x7f", Some("unknown form")),
        (b"# \xff\xfe\x00 \x80", None),
        (b"\t#\xc3", None),
    ] {
        let meant = meant.map(|fault| format!("error: {fault}"));
        let answer = typist.line(line);
        typist
            .script
            .holds(&format!("{line:02x?}: {answer:?}"), answer == meant);
    }
}

/// A line as long as lines may be, most of it comment; one byte longer; and one with words behind that. The last two
/// would have lent another area.
fn long_lines(typist: &mut Typist) {
    let area = shown(&typist.draws.bytes(4));
    let filled = |start: &str, length: usize, end: &str| {
        let fill = "#".repeat(length - start.len() - end.len());
        format!("{start}{fill}{end}")
    };
    for (line, meant) in [
        (filled(&format!("area 0 {area} "), LONGEST_LINE, " end"), "ok"),
        (
            filled("area 0 00 ", LONGEST_LINE + 1, ""),
            "error: line over 65536 bytes",
        ),
        (
            filled("area 0 01 ", LONGEST_LINE + 64, " area 0 02 "),
            "error: line over 65536 bytes",
        ),
    ] {
        let answer = typist.line(line.as_bytes());
        let what = format!("a line of {} bytes: {answer:?}", line.len());
        typist.script.holds(&what, answer.as_deref() == Some(meant));
    }
    let answer = typist.line(b"areas");
    let meant = format!("area 0 {area} area 1 -");
    typist
        .script
        .holds("a line too long changes nothing", answer == Some(meant));
}
