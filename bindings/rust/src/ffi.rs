//! The functions of `libcapi.a`, as include/roualint.h has them.
//!
//! What each asks of its caller: pointers that are not null, to as many bytes as the length behind them says; and no
//! byte that may be written overlaps another that is lent. Rust's references and slices give just that. No pointer is
//! kept.

use crate::chain::Block;
use crate::tag::TAG_BYTES;

type Image = [u8; TAG_BYTES];
type Challenge = [u8; 10];

#[link(name = "capi", kind = "static")]
extern "C" {
    pub fn roualint_tag_bytes() -> usize;
    pub fn roualint_sheet(sheet: *const u8, sheet_length: usize, tag: &mut Image, place: &mut usize) -> u8;
    pub fn roualint_power_up(tag: &mut Image) -> u8;
    pub fn roualint_state(tag: &Image) -> u8;
    pub fn roualint_areas(tag: &Image, identity: &mut usize, user: &mut usize) -> u8;
    pub fn roualint_message(
        tag: &mut Image,
        message: *const u8,
        message_length: usize,
        draws: *const u8,
        draws_length: usize,
        room: *mut u8,
        room_length: usize,
        identity: *mut u8,
        identity_length: usize,
        user: *mut u8,
        user_length: usize,
        reply_length: &mut usize,
        purpose: &mut u8,
    ) -> u8;

    pub fn roualint_build_tam1(
        keyid: u8,
        ichallenge: &Challenge,
        room: *mut u8,
        room_length: usize,
        message_length: &mut usize,
    ) -> u8;
    pub fn roualint_build_tam2(
        enc: &Block,
        mac: *const u8,
        mac_length: usize,
        blocksize: u8,
        rev: u8,
        keyid: u8,
        ichallenge: &Challenge,
        profile: u8,
        offset: u16,
        blockcount: u8,
        protmode: u8,
        room: *mut u8,
        room_length: usize,
        message_length: &mut usize,
    ) -> u8;
    pub fn roualint_build_iam1(keyid: u8, room: *mut u8, room_length: usize, message_length: &mut usize) -> u8;
    pub fn roualint_build_iam2(
        enc: &Block,
        mac: *const u8,
        mac_length: usize,
        purpose: u8,
        irnd: &[u8; 4],
        tchallenge: &Challenge,
        room: *mut u8,
        room_length: usize,
        message_length: &mut usize,
    ) -> u8;
    pub fn roualint_build_iam3(
        enc: &Block,
        mac: *const u8,
        mac_length: usize,
        blocksize: u8,
        profile: u8,
        offset: u16,
        blockcount: u8,
        protmode: u8,
        purpose: u8,
        irnd: &[u8; 4],
        tchallenge: &Challenge,
        words: *const u8,
        words_length: usize,
        room: *mut u8,
        room_length: usize,
        message_length: &mut usize,
    ) -> u8;
    pub fn roualint_build_mam1(
        keyid: u8,
        ichallenge: &Challenge,
        room: *mut u8,
        room_length: usize,
        message_length: &mut usize,
    ) -> u8;
    pub fn roualint_build_mam2(
        enc: &Block,
        mac: *const u8,
        mac_length: usize,
        purpose: u8,
        ichallenge: &Challenge,
        tchallenge: &Challenge,
        room: *mut u8,
        room_length: usize,
        message_length: &mut usize,
    ) -> u8;
    pub fn roualint_judge(
        enc: &Block,
        mac: *const u8,
        mac_length: usize,
        message: *const u8,
        message_length: usize,
        reply: *const u8,
        reply_length: usize,
        room: *mut u8,
        room_length: usize,
        data_length: &mut usize,
        worth: &mut u8,
        issued: &mut u8,
        challenge: &mut Challenge,
    ) -> u8;

    pub fn roualint_aes_enc(key: &Block, block: &mut Block);
    pub fn roualint_aes_dec(key: &Block, block: &mut Block);
    pub fn roualint_cbc_enc_aes(
        iv: &Block,
        key: &Block,
        input: *const u8,
        input_length: usize,
        room: *mut u8,
        room_length: usize,
    ) -> u8;
    pub fn roualint_cbc_dec_aes(
        iv: &Block,
        key: &Block,
        input: *const u8,
        input_length: usize,
        room: *mut u8,
        room_length: usize,
    ) -> u8;
    pub fn roualint_cbc_enc_aes_inv(
        iv: &Block,
        key: &Block,
        input: *const u8,
        input_length: usize,
        room: *mut u8,
        room_length: usize,
    ) -> u8;
    pub fn roualint_cbc_dec_aes_inv(
        iv: &Block,
        key: &Block,
        input: *const u8,
        input_length: usize,
        room: *mut u8,
        room_length: usize,
    ) -> u8;
    pub fn roualint_cmac_96(
        key: &Block,
        input: *const u8,
        input_length: usize,
        room: *mut u8,
        room_length: usize,
    ) -> u8;
}
