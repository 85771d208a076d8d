//! Lines that are answered by an error: each command with each of its fields wrong in each way, with a word too few
//! or too many, and with two things wrong, of which the one that is judged first has the answer.

use super::typist::Aside;
use crate::bench::words::{shown, Fault, MOST_BYTES};
use crate::cases::draws::Draws;

/// The commands with their fields, a letter each: h bytes, d draws, k 16 bytes, m those or none, n a number, a an
/// area, r a room.
pub const COMMANDS: [(&str, &str); 23] = [
    ("sheet", "h"),
    ("area", "ah"),
    ("areas", ""),
    ("power", ""),
    ("message", "hdr"),
    ("keys", "km"),
    ("build tam1", "nh"),
    ("build tam2", "nnnhnnnn"),
    ("build iam1", "n"),
    ("build iam2", "nhh"),
    ("build iam3", "nnnnnnhhh"),
    ("build mam1", "nh"),
    ("build mam2", "nhh"),
    ("judge", "hh"),
    ("aes enc", "kk"),
    ("aes dec", "kk"),
    ("cbc enc_aes", "kkhr"),
    ("cbc dec_aes", "kkhr"),
    ("cbc enc_aes_inv", "kkhr"),
    ("cbc dec_aes_inv", "kkhr"),
    ("cmac", "khr"),
    ("explain", "n"),
    ("help", ""),
];

/// Lines with two things wrong.
const PAIRS: usize = 300;

pub fn all(draws: &mut Draws) -> Vec<Aside> {
    let mut all = Vec::new();
    for (name, fields) in COMMANDS {
        for at in 0..fields.len() {
            for (word, fault) in wrong(draws, kind(fields, at)) {
                let mut words = right(draws, fields);
                words[at] = word;
                all.push(aside(name, &words, fault));
            }
        }
        let mut words = right(draws, fields);
        words.push(draws.one_of(&["-", "0", "more"]).to_string());
        all.push(aside(name, &words, "word too many"));
        // `message` has one field that has to be there; commands with none cannot lack any.
        let least = if name == "message" { 1 } else { fields.len() };
        if least > 0 {
            words.truncate(draws.below(least));
            all.push(aside(name, &words, "word missing"));
        }
    }
    for _ in 0..PAIRS {
        all.push(pair(draws));
    }
    all.extend(long(draws));
    all.extend(unknown());
    all
}

fn kind(fields: &str, at: usize) -> u8 {
    fields.as_bytes()[at]
}

fn aside(name: &str, words: &[String], fault: Fault) -> Aside {
    let text: Vec<&str> = [name].into_iter().chain(words.iter().map(|word| &word[..])).collect();
    Aside::new(&text.join(" "), &format!("error: {fault}"))
}

/// A word for each field.
fn right(draws: &mut Draws, fields: &str) -> Vec<String> {
    fields.bytes().map(|kind| right_word(draws, kind)).collect()
}

fn right_word(draws: &mut Draws, kind: u8) -> String {
    let any = draws.below(65536);
    match kind {
        b'h' => shown(&draws.bytes(any % 13)),
        b'd' if any % 2 == 0 => "*".to_string(),
        b'd' => shown(&draws.bytes(10)),
        b'm' if any % 4 == 0 => "-".to_string(),
        b'k' | b'm' => shown(&draws.array::<16>()),
        b'a' => (any % 2).to_string(),
        b'r' => (any % 4097).to_string(),
        _ => any.to_string(),
    }
}

/// Two or three wrong words for a field, and what each is answered.
fn wrong(draws: &mut Draws, kind: u8) -> Vec<(String, Fault)> {
    let any = draws.below(256);
    let one_of = |list: &[&str]| list[any % list.len()].to_string();
    let not_hex = one_of(&["0g", "zz", "--", "0x00", "-1", "G", "ab-", "**", "a_"]);
    let odd = one_of(&["0", "abc", "12345", "F", "00000000000"]);
    let no_number = one_of(&["x", "-1", "1a", "0x1", "+1", "-", "1.", "*", "99999999999999999999a"]);
    let large = one_of(&[
        "65536",
        "99999999999999999999",
        "065536",
        "100000",
        "340282366920938463463374607431768211456",
    ]);
    let numbers = [(no_number, "not a number"), (large, "number over 65535")];
    let hexes = [(not_hex, "not hex"), (odd, "odd number of hex digits")];
    let length = [15, 17, 0, 32, 12][any % if kind == b'm' { 2 } else { 5 }];
    let other_length = (shown(&draws.bytes(length)), "not 16 bytes");
    match kind {
        b'h' | b'd' => hexes.to_vec(),
        b'k' | b'm' => {
            let digits = shown(&draws.array::<16>());
            vec![
                (format!("{}g", &digits[1..]), "not hex"),
                (digits[1..].to_string(), "odd number of hex digits"),
                other_length,
            ]
        }
        b'a' => [&numbers[..], &[(one_of(&["2", "3", "65535", "0256"]), "area 0 or 1")]].concat(),
        b'r' => [&numbers[..], &[(one_of(&["4097", "65535", "04100"]), "room over 4096")]].concat(),
        _ => numbers.to_vec(),
    }
}

/// Two fields are wrong: the left one is told. Or a field and the number of words: the number is told.
fn pair(draws: &mut Draws) -> Aside {
    let (name, fields) = loop {
        let (name, fields) = COMMANDS[draws.below(COMMANDS.len())];
        if fields.len() > 1 {
            break (name, fields);
        }
    };
    let mut words = right(draws, fields);
    let first = draws.below(fields.len() - 1);
    let second = first + 1 + draws.below(fields.len() - first - 1);
    let mut told = "";
    for at in [second, first] {
        let list = wrong(draws, kind(fields, at));
        let (word, fault) = list[draws.below(list.len())].clone();
        (words[at], told) = (word, fault);
    }
    match draws.below(6) {
        0 => words.push("0".to_string()),
        1 if name != "message" => drop(words.pop()),
        _ => return aside(name, &words, told),
    }
    let many = words.len() > fields.len();
    aside(name, &words, if many { "word too many" } else { "word missing" })
}

/// One byte more than a word may say, and what is told before that.
fn long(draws: &mut Draws) -> Vec<Aside> {
    let most = "5a".repeat(MOST_BYTES);
    let key = shown(&draws.array::<16>());
    let over = "over 4096 bytes";
    [
        ("area 1", format!("{most}00"), over),
        ("judge -", format!("{most}00"), over),
        ("cmac", format!("{key} {most}FF 12"), over),
        ("cbc enc_aes", format!("{key} {key} {most}00 4096"), over),
        ("area 0", format!("{most}000"), "odd number of hex digits"),
        ("sheet", format!("{most}00.0"), "not hex"),
        ("area 2", format!("{most}00"), "area 0 or 1"),
    ]
    .into_iter()
    .map(|(name, words, fault)| aside(name, &[words], fault))
    .collect()
}

/// Names that there are not, however many words follow.
fn unknown() -> Vec<Aside> {
    let of = |list: &[&str], fault: Fault| -> Vec<Aside> { list.iter().map(|text| aside(text, &[], fault)).collect() };
    [
        of(
            &[
                "Areas",
                "HELP",
                "sheets 00",
                "are",
                "areas,",
                "build-tam1 0",
                "-",
                "*",
                "0",
                "message: 00",
            ],
            "unknown command",
        ),
        of(
            &[
                "build tam3",
                "build TAM1 0 00",
                "build tam x y z",
                "build - -",
                "build iam12",
            ],
            "unknown message",
        ),
        of(
            &[
                "aes encrypt 00",
                "aes ENC",
                "cbc enc",
                "cbc enc_aes_ zz",
                "cbc Dec_Aes - - - -",
                "aes enc_aes",
            ],
            "unknown form",
        ),
        of(
            &["build", "aes", "cbc", "judge", "keys", "sheet", "message", "explain"],
            "word missing",
        ),
        of(
            &["help me", "help help", "help -", "areas 0", "areas -", "power on"],
            "word too many",
        ),
    ]
    .into_iter()
    .flatten()
    .collect()
}
