//! The cipher, the chaining forms and the MAC: what the papers print, both ways, and drawn calls with lengths and
//! rooms at the edges.

use super::draws::Draws;
use super::script::{word, Script};
use crate::bench::words::{shown, MOST_BYTES};
use crate::hex::{block, bytes, hex};
use crate::standard::cmac::{cmac, subkeys};

/// The forms, each with the one that undoes it.
const FORMS: [(&str, &str); 4] = [
    ("enc_aes", "dec_aes_inv"),
    ("dec_aes_inv", "enc_aes"),
    ("enc_aes_inv", "dec_aes"),
    ("dec_aes", "enc_aes_inv"),
];

const BLOCKS: usize = 1000;
const CALLS: usize = 6500;

/// At least so often each form is done, and refused.
const EACH: usize = 500;

pub fn all(script: &mut Script) {
    let mut draws = Draws::from(1);
    fips_197(script);
    sp_800_38a(script);
    sp_800_38b(script);
    annex_f(script);
    for _ in 0..BLOCKS {
        undone(script, &draws.array(), &draws.array());
    }
    for i in 0..CALLS {
        match i % 5 {
            4 => mac(script, &mut draws),
            form => chains(script, &mut draws, FORMS[form]),
        }
    }
    for (form, _) in FORMS {
        largest(
            script,
            &mut draws,
            &format!("cbc {form} {}", hex(&[0x5a; 16])),
            MOST_BYTES,
        );
    }
    largest(script, &mut draws, "cmac", 12);
    for name in FORMS
        .map(|(form, _)| format!("cbc {form}"))
        .into_iter()
        .chain(["cmac".to_string()])
    {
        script.often(&format!("{name} done"), EACH);
        script.often(&format!("{name} refused"), EACH);
    }
}

/// A block, sealed and opened.
fn undone(script: &mut Script, key: &[u8; 16], input: &[u8; 16]) {
    let sealed = script.say(&format!("aes enc {} {}", hex(key), hex(input)));
    script.expect(
        &format!("aes dec {} {}", hex(key), word(&sealed, 1)),
        &format!("out {}", hex(input)),
    );
    // The other way is a cipher too.
    script.say(&format!("aes dec {} {}", hex(key), hex(input)));
}

/// FIPS 197, Appendix B and C.1.
fn fips_197(script: &mut Script) {
    script.comment("FIPS 197, Appendix B and C.1");
    for (key, plain, sealed) in [
        (
            "2b7e151628aed2a6abf7158809cf4f3c",
            "3243f6a8885a308d313198a2e0370734",
            "3925841d02dc09fbdc118597196a0b32",
        ),
        (
            "000102030405060708090a0b0c0d0e0f",
            "00112233445566778899aabbccddeeff",
            "69c4e0d86a7b0430d8cdb78070b4c55a",
        ),
    ] {
        script.expect(&format!("aes enc {key} {plain}"), &format!("out {sealed}"));
        script.expect(&format!("aes dec {key} {sealed}"), &format!("out {plain}"));
    }
}

/// The key of SP 800-38A, Appendix F, and SP 800-38B, D.1.
const KEY: &str = "2b7e151628aed2a6abf7158809cf4f3c";

/// The four plaintext blocks of SP 800-38A, Appendix F; SP 800-38B, D.1, takes its messages from their front.
const PLAIN: &str = "6bc1bee22e409f96e93d7e117393172aae2d8a571e03ac9c9eb76fac45af8e51\
    30c81c46a35ce411e5fbc1191a0a52eff69f2445df4f9b17ad2b417be66c3710";

/// SP 800-38A, F.1.1 and F.1.2 (ECB-AES128), F.2.1 and F.2.2 (CBC-AES128).
fn sp_800_38a(script: &mut Script) {
    script.comment("SP 800-38A, F.1.1, F.1.2, F.2.1 and F.2.2");
    let ecb = "3ad77bb40d7a3660a89ecaf32466ef97f5d3d58503b9699de785895a96fdbaaf\
        43b1cd7f598ece23881b00e3ed0306887b0c785e27e8ad3f8223207104725dd4";
    for at in [0, 32, 64, 96] {
        let (plain, sealed) = (&PLAIN[at..at + 32], &ecb[at..at + 32]);
        script.expect(&format!("aes enc {KEY} {plain}"), &format!("out {sealed}"));
        script.expect(&format!("aes dec {KEY} {sealed}"), &format!("out {plain}"));
    }
    let iv = "000102030405060708090a0b0c0d0e0f";
    let cbc = "7649abac8119b246cee98e9b12e9197d5086cb9b507219ee95db113a917678b2\
        73bed6b8e3c1743b7116e69e222295163ff1caa1681fac09120eca307586e1a7";
    script.expect(&format!("cbc enc_aes {iv} {KEY} {PLAIN} 64"), &format!("out {cbc}"));
    script.expect(&format!("cbc dec_aes_inv {iv} {KEY} {cbc} 64"), &format!("out {PLAIN}"));
}

/// SP 800-38B, D.1, examples 1 to 4: the whole CMAC of each is held. The first message is empty and the third no whole
/// number of blocks: CMAC-96 refuses both.
fn sp_800_38b(script: &mut Script) {
    script.comment("SP 800-38B, D.1, examples 1 to 4");
    let (first, second) = subkeys(&block(KEY));
    script.holds("K1", hex(&first) == "fbeed618357133667c85e08f7236a8de");
    script.holds("K2", hex(&second) == "f7ddac306ae266ccf90bc11ee46d513b");
    for (length, tag) in [
        (0, "bb1d6929e95937287fa37d129b756746"),
        (16, "070a16b46b4d4144f79bdd9dd04a287c"),
        (40, "dfa66747de9ae63030ca32611497c827"),
        (64, "51f0bebf7e3b9d92fc49741779363cfe"),
    ] {
        let message = &bytes(PLAIN)[..length];
        script.holds(
            &format!("the CMAC of {length} bytes"),
            hex(&cmac(&block(KEY), message)) == tag,
        );
        let meant = match length {
            16 | 64 => format!("out {}", &tag[..24]),
            _ => "refused 8".to_string(),
        };
        script.expect(&format!("cmac {KEY} {} 12", shown(message)), &meant);
    }
}

/// ISO/IEC 29167-10, Annex F, tables F.26 to F.29 with the second record of table F.1: the block that starts an
/// IResponse is the IV of its custom data and the first block under its MAC.
fn annex_f(script: &mut Script) {
    script.comment("ISO/IEC 29167-10, Annex F, F.26 to F.29: custom data before and after the chaining, and their MAC");
    let (enc_key, mac_key) = ("0a1b2c3d4e5f6a7b8c9d0e1f2ab3c4d5", "889900aabbccddeeffaabbccddeeff00");
    script.holds(
        "K1 of F.27",
        hex(&subkeys(&block(mac_key)).0) == "19d0ca0c238737f6a68572f59af062fa",
    );
    // Header, data and filler: two 64-bit blocks at Offset 0, and two 16-bit blocks at Offset 2.
    let wide = "0800080000000000aabbccddeeff000102030405060708090000000000000000";
    let narrow = "88010800aabbccdd0000000000000000";
    for (start, plain, sent, mac) in [
        (
            "aeb86fd061758873d80b9416c84e3692",
            wide,
            "2fa00d4893fcbdf38d05e97af1238c9aa6dbd01167e8d88572af307f8e7025b4",
            "",
        ),
        (
            "d1a9761c9a8565aca926891e912275e3",
            wide,
            wide,
            "88be5739f14dd1647e758e6e",
        ),
        (
            "5d3f017b042e02228d26c90dbdb513da",
            wide,
            "4363be97e6cd0126036a742f4c1e981078cbcee527213d6abe22b537cd426d63",
            "921e18fc050a4a572389499e",
        ),
        (
            "5d3f017b042e02228d26c90dbdb513da",
            narrow,
            "49e163b8c7a3316ba0a1e3eb62088358",
            "624c8b0cdbe35e089f1c355f",
        ),
    ] {
        let room = plain.len() / 2;
        if plain != sent {
            script.expect(
                &format!("cbc enc_aes_inv {start} {enc_key} {plain} {room}"),
                &format!("out {sent}"),
            );
            script.expect(
                &format!("cbc dec_aes {start} {enc_key} {sent} {room}"),
                &format!("out {plain}"),
            );
        }
        if !mac.is_empty() {
            script.expect(&format!("cmac {mac_key} {start}{sent} 12"), &format!("out {mac}"));
        }
    }
}

/// 0 to 12 blocks, and in one case of four 1 to 15 bytes more.
fn drawn_length(draws: &mut Draws) -> usize {
    let more = if draws.once_in(4) { 1 + draws.below(15) } else { 0 };
    16 * draws.below(13) + more
}

/// Around what is needed: one byte short, any shorter length, exact, one more, the most.
fn drawn_room(draws: &mut Draws, needed: usize) -> usize {
    match draws.below(8) {
        0 => needed.saturating_sub(1),
        1 => draws.below(needed + 1),
        2 => needed + 1,
        3 => MOST_BYTES,
        _ => needed,
    }
}

/// A chaining call, and the call that undoes it.
fn chains(script: &mut Script, draws: &mut Draws, (form, undoing): (&str, &str)) {
    let length = drawn_length(draws);
    let (iv, key) = (hex(&draws.array::<16>()), hex(&draws.array::<16>()));
    let (data, room) = (shown(&draws.bytes(length)), drawn_room(draws, length));
    let answer = script.say(&format!("cbc {form} {iv} {key} {data} {room}"));
    let fits = length % 16 == 0 && room >= length;
    script.holds(
        &format!("{length} bytes into {room}: {answer}"),
        answer.starts_with("out ") == fits,
    );
    script.count(format!("cbc {form} {}", if fits { "done" } else { "refused" }));
    if fits {
        let undone = format!("cbc {undoing} {iv} {key} {} {length}", word(&answer, 1));
        script.expect(&undone, &format!("out {data}"));
    }
}

fn mac(script: &mut Script, draws: &mut Draws) {
    let length = drawn_length(draws);
    let (key, data, room) = (
        hex(&draws.array::<16>()),
        shown(&draws.bytes(length)),
        drawn_room(draws, 12),
    );
    let answer = script.say(&format!("cmac {key} {data} {room}"));
    let fits = length > 0 && length % 16 == 0 && room >= 12;
    script.holds(
        &format!("{length} bytes into {room}: {answer}"),
        answer.starts_with("out ") == fits,
    );
    script.count(if fits { "cmac done" } else { "cmac refused" });
}

/// As many bytes as a word can say, in a room that is just enough, and in one that lacks a byte.
fn largest(script: &mut Script, draws: &mut Draws, start: &str, needed: usize) {
    let (key, data) = (hex(&draws.array::<16>()), hex(&draws.bytes(MOST_BYTES)));
    let answer = script.say(&format!("{start} {key} {data} {needed}"));
    script.holds("the most bytes", answer.len() == 4 + 2 * needed);
    script.expect(&format!("{start} {key} {data} {}", needed - 1), "refused 8");
}
