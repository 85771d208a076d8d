//! The 18 examples of ISO/IEC 29167-10, Annex F, each from power-up: what the reader builds, what the tag replies,
//! what the judge finds and what the area then has are held to what is printed. Where the copy at hand has wrong
//! digits (F.12, F.14) or too many zeros (F.20, F.27, F.30), the digits here are those that the computation gives.

use super::script::Script;
use crate::bench::orders;
use crate::bench::words::shown;
use crate::hex::{bytes, hex, number};
use crate::standard::build::Order;
use crate::standard::frames::{data_bytes, fields, kind_of, Kind};
use crate::standard::sheet;

/// All features; an identity area of 9 words; the two records of Table F.1; profile 1 over the whole area (Table F.2).
const SHEET: &str = "01 3F 0F  02 0009 0000
    03 00 01 0002 000102030405060708090A0B0C0D0E0F 2B7E151628AED2A6ABF7158809CF4F3C
    03 01 01 0007 0A1B2C3D4E5F6A7B8C9D0E1F2AB3C4D5 889900AABBCCDDEEFFAABBCCDDEEFF00
    04 01 00 0000 0009  06";
const MEMORY: &str = "A16A76656E69617A5265676E756D5475756D";

struct Example {
    table: &'static str,
    /// The message, and before it, where there has to be one, the message that opens the exchange.
    messages: &'static [&'static str],
    /// Worked out from the replies. Unused ones are zeros.
    draws: &'static [&'static str],
    replies: &'static [&'static str],
    memory: &'static str,
}

const TAM1: &str = "000096564402375796C69664";
const IAM1: &str = "4001";
const MAM1: &str = "800196564402375796C69664";
const TCHALLENGE: &str = "9786CAFE01BB65DC2300";
const MAM1_DRAWS: &str = "566F6E20427261756E20";
const MAM1_REPLY: &str = "47D77088E9143699215C9D162D8A310A 566F6E204272";
const NONE: &str = "00000000000000000000";
const RFID: &str = "72666964000000000000";
const IRND: &str = "8852BE01";

/// A tag authentication from Initial back to Initial.
const fn tam(
    table: &'static str,
    messages: &'static [&'static str],
    draws: &'static [&'static str],
    replies: &'static [&'static str],
) -> Example {
    Example {
        table,
        messages,
        draws,
        replies,
        memory: MEMORY,
    }
}

/// IAM1, then a message with an IResponse.
const fn iam(table: &'static str, messages: &'static [&'static str], memory: &'static str) -> Example {
    Example {
        table,
        messages,
        draws: &[TCHALLENGE, NONE],
        replies: &[TCHALLENGE, ""],
        memory,
    }
}

const EXAMPLES: [Example; 18] = [
    tam("F.4", &[TAM1], &["6D696372000000000000"], &["E920530CC781B20CFE1AB4A0144E7335"]),
    tam(
        "F.6",
        &["200096564402375796C69664 100011"],
        &[RFID],
        &["C67D0EF2B1BA176DF9C0BD226212F142 46E79BF351E3D2A3CB50BEF0F1A917B3"],
    ),
    tam(
        "F.8",
        &["200096564402375796C69664 100002"],
        &[RFID],
        &["C67D0EF2B1BA176DF9C0BD226212F142 A16A76656E69617A0000000000000000 0DD2C5DEEC5EA202C41DFEE8"],
    ),
    tam(
        "F.10",
        &["200096564402375796C69664 100013"],
        &[RFID],
        &["C67D0EF2B1BA176DF9C0BD226212F142 46E79BF351E3D2A3CB50BEF0F1A917B3 1FD222AEDA9F7FF0DEB86509"],
    ),
    tam(
        "F.12",
        &["280096564402375796C69664 100011"],
        &[RFID],
        &["B06628168448AF275D67756D4D17A0EE 33D7DC1DE1F6CF25CD92AAB5AF137091 08205C9947BA986D62D98A795D43B539"],
    ),
    tam(
        "F.14",
        &["280096564402375796C69664 100002"],
        &[RFID],
        &["27CA8EFD714DE5C0B3F7C62619D4E204 0800000000000000A16A76656E69617A 0DFF99A6D097FF9028E0FEA4"],
    ),
    tam(
        "F.16",
        &["280096564402375796C69664 100013"],
        &[RFID],
        &["67039773F2C3C8E8B1D29254BADEF7C9 B86966552DEE705111D4C077009D777C
            6D725BCD8DC8FA5C83960148241958C2 E3546DEA93F24EE9B9799A43"],
    ),
    tam(
        "F.18",
        &["380096564402375796C69664 100043"],
        &[RFID],
        &["67039773F2C3C8E8B1D29254BADEF7C9 0E0B9231A0CF8735023ED8430A9EE40C 93B88C6C88230ADEF9D7B62A"],
    ),
    tam(
        "F.20",
        &["380096564402375796C69664 100070"],
        &[RFID],
        &["D43EF22E787383D87DAFD67617A7D6EE 88003800A16A76656E69617A5265676E 756D5475000000000000000000000000"],
    ),
    Example {
        table: "F.22",
        messages: &[IAM1],
        draws: &[TCHALLENGE],
        replies: &[TCHALLENGE],
        memory: MEMORY,
    },
    iam("F.23", &[IAM1, "50 2C79B76E2EF8B47F6DC4E861EA2F3D5E"], MEMORY),
    iam(
        "F.26",
        &[
            IAM1,
            "58100011 AEB86FD061758873D80B9416C84E3692
            2FA00D4893FCBDF38D05E97AF1238C9A A6DBD01167E8D88572AF307F8E7025B4",
        ],
        "AABBCCDDEEFF00010203040506070809756D",
    ),
    iam(
        "F.27",
        &[
            IAM1,
            "58100012 D1A9761C9A8565ACA926891E912275E3 0800080000000000AABBCCDDEEFF0001 02030405060708090000000000000000
            88BE5739F14DD1647E758E6E",
        ],
        "AABBCCDDEEFF00010203040506070809756D",
    ),
    iam(
        "F.28",
        &[
            IAM1,
            "58100013 5D3F017B042E02228D26C90DBDB513DA 4363BE97E6CD0126036A742F4C1E9810 78CBCEE527213D6ABE22B537CD426D63
            921E18FC050A4A572389499E",
        ],
        "AABBCCDDEEFF00010203040506070809756D",
    ),
    iam(
        "F.29",
        &[
            IAM1,
            "5C100213 5D3F017B042E02228D26C90DBDB513DA 49E163B8C7A3316BA0A1E3EB62088358 624C8B0CDBE35E089F1C355F",
        ],
        "A16A7665AABBCCDD5265676E756D5475756D",
    ),
    iam(
        "F.30",
        &[IAM1, "5C100000 2C79B76E2EF8B47F6DC4E861EA2F3D5E 88000000AABB00000000000000000000"],
        "AABB76656E69617A5265676E756D5475756D",
    ),
    Example {
        table: "F.32",
        messages: &[MAM1],
        draws: &[MAM1_DRAWS],
        replies: &[MAM1_REPLY],
        memory: MEMORY,
    },
    Example {
        table: "F.33",
        messages: &[MAM1, "90 F537798C9E30CF1999E3C52A7994BD93"],
        draws: &[MAM1_DRAWS, NONE],
        replies: &[MAM1_REPLY, ""],
        memory: MEMORY,
    },
];

pub fn all(script: &mut Script) {
    let keys = sheet::read(&bytes(SHEET)).expect("a good sheet").keys;
    script.expect(&format!("sheet {}", hex(&bytes(SHEET))), "ok");
    for example in &EXAMPLES {
        script.comment(&format!("ISO/IEC 29167-10, Annex F, {}", example.table));
        script.expect("power", "ok");
        script.expect(&format!("area 0 {}", hex(&bytes(MEMORY))), "ok");
        // Tag authentication is shown with record 00, the other two with record 01.
        let key = keys[usize::from(bytes(example.messages[0])[0] >= 0x40)];
        script.expect(&format!("keys {} {}", hex(&key.enc_key), hex(&key.mac_key)), "ok");
        for at in 0..example.messages.len() {
            exchange(script, example, at);
        }
        script.expect("areas", &format!("area 0 {} area 1 -", hex(&bytes(example.memory))));
    }
}

fn exchange(script: &mut Script, example: &Example, at: usize) {
    let [message, draws, reply] = [example.messages[at], example.draws[at], example.replies[at]].map(bytes);
    let order = order(&message, example);
    let (kind, f) = (order.kind, order.fields);
    script.expect(&orders::words(&order).join(" "), &format!("message {}", hex(&message)));
    let (state, purpose) = match kind {
        Kind::Tam1 | Kind::Tam2 => ("Initial", "-"),
        Kind::Iam1 => ("IAM-Init", "-"),
        Kind::Mam1 => ("MAM-Init", "-"),
        Kind::Iam2 | Kind::Iam3 | Kind::Mam2 => ("IA-OK", "0"),
    };
    script.expect(
        &format!("message {} {}", hex(&message), hex(&draws)),
        &format!("reply {} state {state} purpose {purpose}", shown(&reply)),
    );
    let (data, challenge, word) = match kind {
        Kind::Tam2 => {
            let length = data_bytes(f.blocksize as usize, f.blockcount as usize);
            let word = if f.protmode < 2 { "unproved" } else { "proved" };
            (&bytes(MEMORY)[..length], &[][..], word)
        }
        Kind::Iam1 | Kind::Mam1 => (&[][..], &draws[..], "-"),
        _ => (&[][..], &[][..], "-"),
    };
    script.expect(
        &format!("judge {} {}", hex(&message), shown(&reply)),
        &format!("accepted data {} challenge {} {word}", shown(data), shown(challenge)),
    );
}

/// What the printed message is built from: its fields, IRnd, the challenges and, for IAM3, the words that the memory
/// has in the end. Purpose is 0 in all examples.
fn order(message: &[u8], example: &Example) -> Order {
    let kind = kind_of(message[0]).expect("a message");
    let mut fields = fields(kind, message);
    let (step, blocks) = ([8, 2][fields.blocksize as usize], fields.blockcount as usize + 1);
    let start = fields.offset as usize * step;
    let value = |text: &str| number(&bytes(text));
    if kind == Kind::Mam2 {
        fields.ichallenge = value(&MAM1[4..]);
    }
    Order {
        kind,
        fields,
        purpose: 0,
        irnd: value(IRND),
        tchallenge: value(if kind == Kind::Mam2 { MAM1_DRAWS } else { TCHALLENGE }),
        data: match kind {
            Kind::Iam3 => bytes(example.memory)[start..start + blocks * step].to_vec(),
            _ => Vec::new(),
        },
    }
}
