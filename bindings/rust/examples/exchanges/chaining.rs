//! Published vectors, each form undone, and number 8; and 64 MB through each form and through the MAC, in a thread that
//! has 64 KB of stack.

use crate::bench::{array, hex, number};
use roualint::{aes_dec, aes_enc, cbc_dec_aes, cbc_dec_aes_inv, cbc_enc_aes, cbc_enc_aes_inv, cmac_96, Refusal};
use std::thread;

type Form = fn(&[u8; 16], &[u8; 16], &[u8], &mut [u8]) -> Result<(), Refusal>;
type Cipher = fn(&[u8; 16], &[u8; 16]) -> [u8; 16];

const LARGE: usize = 64 << 20;

/// A system may want a thread to have more, and then it has that (on aarch64 it is 128 KB).
const STACK: usize = 64 << 10;

/// Of the blocks one in so many is compared with the cipher's; there is no factor that it shares with a power of 2.
const STRIDE: usize = 997;

pub fn cipher_and_chaining() {
    let (key, iv) = (
        array("2B7E151628AED2A6ABF7158809CF4F3C"),
        array("000102030405060708090A0B0C0D0E0F"),
    );
    let block = array("00112233445566778899AABBCCDDEEFF");
    assert_eq!(
        aes_enc(&iv, &block),
        array("69C4E0D86A7B0430D8CDB78070B4C55A"),
        "FIPS 197, C.1"
    );
    assert_eq!(aes_dec(&iv, &aes_enc(&iv, &block)), block, "AES-DEC undoes AES-ENC");

    let text = hex("6BC1BEE22E409F96E93D7E117393172A AE2D8A571E03AC9C9EB76FAC45AF8E51");
    let mut room = [0xc3; 40];
    cbc_enc_aes(&iv, &key, &text, &mut room).expect("two blocks");
    assert_eq!(
        room[..32],
        hex("7649ABAC8119B246CEE98E9B12E9197D 5086CB9B507219EE95DB113A917678B2"),
        "SP 800-38A, F.2.1"
    );
    assert_eq!(room[32..], [0xc3; 8], "behind the output the room stays");
    for (enc, dec) in [
        (cbc_enc_aes as Form, cbc_dec_aes_inv as Form),
        (cbc_enc_aes_inv, cbc_dec_aes),
    ] {
        let (mut one, mut two) = ([0; 32], [0xc3; 40]);
        enc(&iv, &key, &text, &mut one)
            .and_then(|()| dec(&iv, &key, &one, &mut two[4..36]))
            .expect("two forms");
        assert!(
            two[4..36] == text && two[..4] == [0xc3; 4] && two[36..] == [0xc3; 4],
            "the DEC form undoes the ENC form"
        );
        for form in [enc, dec] {
            assert_eq!(
                number(form(&iv, &key, &text[1..], &mut two)),
                Some(8),
                "no whole number of blocks"
            );
            assert_eq!(number(form(&iv, &key, &text, &mut two[..31])), Some(8), "a short room");
        }
        assert_eq!(two[4..36], text, "a refusal writes nothing");
    }
    assert_eq!(
        cmac_96(&key, &text[..16]),
        Ok(array("070A16B46B4D4144F79BDD9D")),
        "SP 800-38B, D.1"
    );
    assert_eq!(
        [number(cmac_96(&key, &[])), number(cmac_96(&key, &text[1..]))],
        [Some(8); 2],
        "the MAC's number 8"
    );
}

/// Byte i of the input.
fn byte_at(i: usize) -> u8 {
    ((i as u32).wrapping_mul(2_654_435_761) >> 24) as u8
}

fn added(a: &[u8], b: &[u8]) -> [u8; 16] {
    std::array::from_fn(|i| a[i] ^ b[i])
}

/// An ENC form with an IV of zeros, of which each output block that is looked at is the cipher's, of the input block
/// and the output block before it.
fn is_chained(enc: Form, way: Cipher, key: &[u8; 16], input: &[u8], output: &mut [u8]) {
    enc(&[0; 16], key, input, output).expect("the ENC form of 64 MB");
    let before = |at: usize| if at == 0 { &[0; 16] } else { &output[at - 16..at] };
    for at in (0..LARGE).step_by(16 * STRIDE) {
        let block = way(key, &added(&input[at..], before(at)));
        assert_eq!(block, output[at..at + 16], "chained to the output block before it");
    }
}

/// What the ENC form made of the input, into the input's place.
fn is_undone(dec: Form, key: &[u8; 16], output: &[u8], input: &mut [u8]) {
    input.fill(0);
    dec(&[0; 16], key, output, input).expect("the DEC form of 64 MB");
    assert!(
        input.iter().enumerate().all(|(i, b)| *b == byte_at(i)),
        "the DEC form undoes the ENC form"
    );
}

/// The last block of CBC_ENC_AES with an IV of zeros is the CMAC of the same input with K1 (SP 800-38B, 6.1) added to
/// its last block.
fn mac_is_last(key: &[u8; 16], input: &mut [u8], output: &[u8]) {
    let l = u128::from_be_bytes(aes_enc(key, &[0; 16]));
    let k1 = (l << 1 ^ (l >> 127) * 0x87).to_be_bytes();
    let last = LARGE - 16;
    let kept = added(&input[last..], &[0; 16]);
    input[last..].copy_from_slice(&added(&kept, &k1));
    let mac = cmac_96(key, input).expect("the MAC of 64 MB");
    input[last..].copy_from_slice(&kept);
    assert_eq!(mac, output[last..last + 12], "the MAC is the last block of the chain");
}

fn all_forms() {
    let key = array("2B7E151628AED2A6ABF7158809CF4F3C");
    let mut input: Vec<u8> = (0..LARGE).map(byte_at).collect();
    let mut output = vec![0; LARGE];
    is_chained(cbc_enc_aes, aes_enc, &key, &input, &mut output);
    mac_is_last(&key, &mut input, &output);
    is_undone(cbc_dec_aes_inv, &key, &output, &mut input);
    is_chained(cbc_enc_aes_inv, aes_dec, &key, &input, &mut output);
    is_undone(cbc_dec_aes, &key, &output, &mut input);
}

pub fn large_inputs() {
    let thread = thread::Builder::new().stack_size(STACK).spawn(all_forms);
    thread.expect("a thread").join().expect("64 MB in 64 KB of stack");
}
