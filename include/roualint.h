/* Roualint for C99 and C++: a soft tag, the reader's side, and the cipher with its chaining and its MAC, by
 * ISO/IEC 29167-10:2017. Link target/staticlib/libcapi.a, which bindings/library proves and writes.
 *
 * Every function takes any bytes and any numbers, and returns. No proof speaks of the stack: what was measured uses up
 * to 4 KB of it (docs/src/speed/stack), and nothing grows with an input's length. What each leaves is proved, byte for
 * byte; the contracts stand in crates/capi/src, what they mean in crates/capi/specs. Numbers are those of
 * docs/numbers.txt.
 *
 * Nothing checks the caller, who must pass what is said here: no null pointer, also where a length is 0; as many bytes
 * behind each pointer as its length says (a parameter `x[16]` has 16); and no byte that a call may write overlaps
 * another that is lent to the same call, or is used by another thread meanwhile. No pointer is kept. */
#ifndef ROUALINT_H
#define ROUALINT_H

#include <stddef.h>
#include <stdint.h>

#ifdef __cplusplus
extern "C" {
#endif

/* ---- sizes in bytes ---- */

#define ROUALINT_TAG          793 /* a kept tag */
#define ROUALINT_DRAWS        10  /* the random bytes that come with each message to the tag */
#define ROUALINT_REPLY_ROOM   172 /* the room for a reply, at least */
#define ROUALINT_MESSAGE_ROOM 176 /* the room for a message that is built, at least */
#define ROUALINT_DATA_ROOM    144 /* the room for the data of a reply that is judged, at least */

/* ---- numbers ---- */

#define ROUALINT_ACCEPTED 0

/* of the tag */
#define ROUALINT_OTHER_ERROR        1
#define ROUALINT_NOT_SUPPORTED      2
#define ROUALINT_MEMORY_OVERRUN     3
#define ROUALINT_MEMORY_WRITE_ERROR 4
#define ROUALINT_OUT_OF_TURN        5
#define ROUALINT_PROOF_WRONG        6
#define ROUALINT_BENCH_FAULT        7

/* of chaining and the MAC */
#define ROUALINT_CHAINING_REFUSED 8

/* of the reader's side */
#define ROUALINT_REPLY_LENGTH    20
#define ROUALINT_CHALLENGE_WRONG 21
#define ROUALINT_MAC_WRONG       22
#define ROUALINT_HEADER_WRONG    23
#define ROUALINT_OWN_MESSAGE     24

/* of the sheet */
#define ROUALINT_SHEET_CUT          30
#define ROUALINT_SHEET_KIND_UNKNOWN 31
#define ROUALINT_SHEET_KIND_ORDER   32
#define ROUALINT_SHEET_VALUE        33
#define ROUALINT_SHEET_TOO_MANY     34
#define ROUALINT_SHEET_BYTES_FOLLOW 35

/* ---- states, worths, Purpose ---- */

#define ROUALINT_INITIAL  0
#define ROUALINT_IAM_INIT 1
#define ROUALINT_MAM_INIT 2
#define ROUALINT_IA_OK    3
#define ROUALINT_NO_TAG   255 /* a first byte over 3 is no state */

#define ROUALINT_NO_DATA  0
#define ROUALINT_UNPROVED 1
#define ROUALINT_PROVED   2

#define ROUALINT_NO_PURPOSE 255 /* no reader was let in */

/* ---- a soft tag ----
 *
 * A tag is kept by its caller, in these bytes:
 *     0          state, 0 to 3
 *     1          KeyID that is held
 *     2 to 11    TChallenge that is held
 *     12 to 15   IChallenge[31:0] that is held
 *     16, 17     features, as in the sheet's record 01 behind its kind byte
 *     18 to 21   the sizes of the areas, as in record 02
 *     22 to 117  sixteen profiles of 6 bytes: 1 where there is one, area, base, words; zeros where there is none
 *     118        how many locks there are
 *     119 to 198 sixteen locks of 5 bytes, as in record 05; zeros where there is none
 *     199, 200   how many key records there are
 *     201 to 792 the key records, 37 bytes each, as they stand in the sheet, and zeros behind them
 * Numbers go most significant byte first. roualint_sheet writes all of it, and every other function the first sixteen
 * bytes alone. It can be copied, stored and compared like any bytes: of tags that roualint_sheet made, two have the
 * same sheet and the same session just where their bytes are equal. Bytes are no tag's where the state is over 3, there
 * are more than 16 locks or more than 16 key records, a challenge waits (state 1 or 2) for a KeyID that no record has,
 * or anything is held in state 0 or 3. All others are taken at their word, sheet or no sheet: what is proved of a
 * message holds of the setup that the bytes say. All zeros are the tag of the smallest sheet, which has no key,
 * and so takes no message.
 *
 * That is all that is asked: the library can't tell a stored tag from bytes that were made by hand. They are the
 * standard's tag where roualint_sheet made them and only these functions changed them since (theorem sheet_run in
 * crates/capi/proofs/Runs.antt). So keep them, like the keys they hold, where nobody else writes. Bytes from elsewhere
 * are safe to pass: every call returns and keeps to its contract. But whoever makes the bytes chooses keys and
 * challenges. */
typedef struct roualint_tag {
    uint8_t bytes[ROUALINT_TAG];
} roualint_tag;

/* How many bytes a kept tag has: 793. */
size_t roualint_tag_bytes(void);

/* A sheet becomes a tag at its power-up: 0, and *place is 0. A refused sheet: 30 to 35, and the tag stays as it was;
 * *place, counted from 0, is that of the kind byte of the record that is refused; for 35 that of the first byte behind
 * the end record; for 30, where no record is there, the sheet's length. */
uint8_t roualint_sheet(const uint8_t *sheet, size_t sheet_length, roualint_tag *tag, size_t *place);

/* Power-up and reset: 0, and the tag is in Initial and holds nothing: the session's sixteen bytes are zeros, and all
 * others stay. Bytes that are no tag's: 7, and they stay as they are. */
uint8_t roualint_power_up(roualint_tag *tag);

/* The tag's state, 0 to 3; 255 where it is over 3. Only the first byte is read: whether the bytes are a tag's, the
 * other functions tell by number 7. */
uint8_t roualint_state(const roualint_tag *tag);

/* The sizes in bytes of the two areas that the tag wants lent: 0. Bytes that are no tag's: 7, and both sizes are 0. */
uint8_t roualint_areas(const roualint_tag *tag, size_t *identity, size_t *user);

/* One message to the tag. Accepted: 0, the reply stands in the room's first bytes, *reply_length is its length,
 * *purpose is the Purpose of a reader that is let in, 0 to 15, or 255 where none is, and an accepted IAM3 has written
 * its words into its area. Refused: 1 to 7, *reply_length is 0, *purpose is 255, and no byte of room and areas changes.
 * The tag holds its next session: after 1 to 6 it is in Initial and holds nothing, after 7 it is as it was. 7 is given
 * where the draws are not 10 bytes, the room has under 172, an area is not of its size, or the bytes are no tag's. */
uint8_t roualint_message(roualint_tag *tag, const uint8_t *message, size_t message_length, const uint8_t *draws,
                         size_t draws_length, uint8_t *room, size_t room_length, uint8_t *identity,
                         size_t identity_length, uint8_t *user, size_t user_length, size_t *reply_length,
                         uint8_t *purpose);

/* ---- the reader's side ----
 *
 * The reader's keys are ENC_key and MAC_key: mac_length is 16, or 0 for no MAC key; any other is number 24.
 *
 * A builder lays its message over the room's first bytes: 0, and *message_length is its length. 24 for a field out of
 * its range, ProtMode 2 or 3 with no MAC key, data of another length than BlockSize and BlockCount say, or a room of
 * under 176 bytes; then *message_length is 0, and no byte of the room changes. BlockSize is 0 for 64-bit blocks and 1
 * for 16-bit blocks, Rev 0 or 1, Profile 0 to 15, Offset 0 to 4,095, BlockCount 0 to 15 (0 is one block), ProtMode 0 to
 * 3, Purpose 0 to 15. */

/* TAM1: 12 bytes. */
uint8_t roualint_build_tam1(uint8_t keyid, const uint8_t ichallenge[10], uint8_t *room, size_t room_length,
                            size_t *message_length);

/* TAM2: 15 bytes. */
uint8_t roualint_build_tam2(const uint8_t enc[16], const uint8_t *mac, size_t mac_length, uint8_t blocksize,
                            uint8_t rev, uint8_t keyid, const uint8_t ichallenge[10], uint8_t profile, uint16_t offset,
                            uint8_t blockcount, uint8_t protmode, uint8_t *room, size_t room_length,
                            size_t *message_length);

/* IAM1: 2 bytes. */
uint8_t roualint_build_iam1(uint8_t keyid, uint8_t *room, size_t room_length, size_t *message_length);

/* IAM2, the answer to the challenge that came with the reply to IAM1: 17 bytes. */
uint8_t roualint_build_iam2(const uint8_t enc[16], const uint8_t *mac, size_t mac_length, uint8_t purpose,
                            const uint8_t irnd[4], const uint8_t tchallenge[10], uint8_t *room, size_t room_length,
                            size_t *message_length);

/* IAM3, the same answer with data to be written: 36 to 176 bytes. */
uint8_t roualint_build_iam3(const uint8_t enc[16], const uint8_t *mac, size_t mac_length, uint8_t blocksize,
                            uint8_t profile, uint16_t offset, uint8_t blockcount, uint8_t protmode, uint8_t purpose,
                            const uint8_t irnd[4], const uint8_t tchallenge[10], const uint8_t *words,
                            size_t words_length, uint8_t *room, size_t room_length, size_t *message_length);

/* MAM1: 12 bytes. */
uint8_t roualint_build_mam1(uint8_t keyid, const uint8_t ichallenge[10], uint8_t *room, size_t room_length,
                            size_t *message_length);

/* MAM2, the answer to the challenge that came with the reply to MAM1: 17 bytes. */
uint8_t roualint_build_mam2(const uint8_t enc[16], const uint8_t *mac, size_t mac_length, uint8_t purpose,
                            const uint8_t ichallenge[10], const uint8_t tchallenge[10], uint8_t *room,
                            size_t room_length, size_t *message_length);

/* The judgement of a reply to the reader's own message. Accepted: 0; the data of a TAM2 stand in the room's first
 * bytes, *data_length is their length and *worth what they are worth: 1 where no MAC proves them, 2 where it does, 0
 * where none came; *issued is 1 where the tag sent a challenge, which stands in challenge, else 0 and zeros. Refused:
 * 20 to 24, with no data and no challenge, and no byte of the room changes. Every judgement wants a room of 144 bytes.
 */
uint8_t roualint_judge(const uint8_t enc[16], const uint8_t *mac, size_t mac_length, const uint8_t *message,
                       size_t message_length, const uint8_t *reply, size_t reply_length, uint8_t *room,
                       size_t room_length, size_t *data_length, uint8_t *worth, uint8_t *issued, uint8_t challenge[10]);

/* ---- the cipher, chaining and the MAC ---- */

/* AES-ENC of a block, in place. */
void roualint_aes_enc(const uint8_t key[16], uint8_t block[16]);

/* AES-DEC of a block, in place. */
void roualint_aes_dec(const uint8_t key[16], uint8_t block[16]);

/* Of each of the four forms: 0, and as many bytes as the input has stand in the room's first. An input that is no whole
 * number of 16-byte blocks, or a room that is shorter: 8, and no byte of the room changes. 64 MB were put through each
 * and through the MAC in a thread that has 64 KB of stack (bindings/test). */

/* CBC_ENC_AES (3.1.8), by AES-ENC: the tag encrypts custom data. */
uint8_t roualint_cbc_enc_aes(const uint8_t iv[16], const uint8_t key[16], const uint8_t *input, size_t input_length,
                             uint8_t *room, size_t room_length);

/* CBC_DEC_AES (3.1.11), by AES-ENC: the tag decrypts what CBC_ENC_AES_INV made. */
uint8_t roualint_cbc_dec_aes(const uint8_t iv[16], const uint8_t key[16], const uint8_t *input, size_t input_length,
                             uint8_t *room, size_t room_length);

/* CBC_ENC_AES_INV (3.1.10), by AES-DEC: the reader encrypts for a tag that can only encrypt. */
uint8_t roualint_cbc_enc_aes_inv(const uint8_t iv[16], const uint8_t key[16], const uint8_t *input, size_t input_length,
                                 uint8_t *room, size_t room_length);

/* CBC_DEC_AES_INV (3.1.9), by AES-DEC: the reader decrypts what CBC_ENC_AES made. */
uint8_t roualint_cbc_dec_aes_inv(const uint8_t iv[16], const uint8_t key[16], const uint8_t *input, size_t input_length,
                                 uint8_t *room, size_t room_length);

/* CMAC-96: 0, and twelve bytes stand in the room's first. An input that is no whole number of blocks, or none, or a
 * room of under 12 bytes: 8, and no byte of the room changes. */
uint8_t roualint_cmac_96(const uint8_t key[16], const uint8_t *input, size_t input_length, uint8_t *room,
                         size_t room_length);

#ifdef __cplusplus
}
#endif

#endif
