/* Both halves of the bench through include/roualint.h: exchanges of Annex F, refusals of each family, and that no byte
 * outside of what is lent is written. Prints one line where all is well; else a message, and the status is 1. */
#include "annexf.h"
#include "bench.h"
#include "lent.h"
#include "plain.h"
#include "roualint.h"

#include <stdio.h>
#include <string.h>

static void sizes(void) {
    EXPECT(sizeof(roualint_tag) == ROUALINT_TAG && offsetof(roualint_tag, bytes) == 0,
           "a tag has its bytes and nothing else");
    EXPECT(roualint_tag_bytes() == sizeof(roualint_tag), "the library's tag has as many bytes as the header's");
}

/* Are the bytes a tag's, by the areas that it tells? */
static int is_tag(const roualint_tag *tag) {
    size_t identity, user;
    return roualint_areas(tag, &identity, &user) == 0;
}

static void sheets(void) {
    struct bench b = annex_f();
    roualint_tag before = *b.tag, *none = (roualint_tag *)lent(sizeof(roualint_tag));
    size_t n, place = 99, identity = 99, user = 99;
    const uint8_t *sheet = hex(SHEET, &n);
    EXPECT(are_all(b.tag->bytes, 16, 0), "the session of a new tag");
    EXPECT(memcmp(b.tag->bytes + 16, sheet + 1, 2) == 0 && memcmp(b.tag->bytes + 18, sheet + 4, 4) == 0,
           "features and sizes");
    EXPECT(are_all(b.tag->bytes + 22, 6, 0) && is_hex(b.tag->bytes + 28, 6, "010000000009"), "profile 1 of sixteen");
    EXPECT(are_all(b.tag->bytes + 34, 165, 0), "no other profile, and no lock");
    EXPECT(is_hex(b.tag->bytes + 199, 2, "0002") && memcmp(b.tag->bytes + 201, sheet + 8, 74) == 0, "the key records");
    EXPECT(are_all(b.tag->bytes + 275, ROUALINT_TAG - 275, 0), "zeros behind them");
    EXPECT(roualint_state(b.tag) == ROUALINT_INITIAL, "a new tag is in Initial");
    EXPECT(roualint_areas(b.tag, &identity, &user) == 0 && identity == 18 && user == 0, "the areas' sizes");

    EXPECT(roualint_sheet(sheet, 0, b.tag, &place) == ROUALINT_SHEET_CUT && place == 0, "the empty sheet");
    EXPECT(roualint_sheet(sheet, 20, b.tag, &place) == ROUALINT_SHEET_CUT && place == 8, "a sheet that is cut");
    EXPECT(roualint_sheet(sheet, 45, b.tag, &place) == ROUALINT_SHEET_CUT && place == 45,
           "a sheet that ends behind a record");
    EXPECT(roualint_sheet(bytes(SHEET "00"), n + 1, b.tag, &place) == ROUALINT_SHEET_BYTES_FOLLOW && place == n,
           "a byte follows");
    EXPECT(roualint_sheet(sheet + 3, n - 3, b.tag, &place) == ROUALINT_SHEET_KIND_ORDER && place == 0,
           "a sheet without its first record");
    EXPECT(memcmp(&before, b.tag, sizeof before) == 0, "a refused sheet leaves the tag as it was");

    /* A shorter sheet leaves nothing of the longer one. */
    sheet = hex(OPENING "06", &n);
    EXPECT(roualint_sheet(sheet, n, b.tag, &place) == 0 && place == 0, "a sheet of three records");
    EXPECT(are_all(b.tag->bytes + 22, ROUALINT_TAG - 22, 0), "no byte of the older sheet is left");
    sheet = hex("01 0000 02 0000 0000 06", &n);
    EXPECT(roualint_sheet(sheet, n, b.tag, &place) == 0 && are_all(b.tag->bytes, ROUALINT_TAG, 0),
           "zeros are the smallest sheet's tag");

    memset(none, 0xFF, sizeof *none);
    EXPECT(roualint_state(none) == ROUALINT_NO_TAG && roualint_power_up(none) == ROUALINT_BENCH_FAULT,
           "a state that is none");
    EXPECT(roualint_areas(none, &identity, &user) == ROUALINT_BENCH_FAULT && identity == 0 && user == 0,
           "it has no areas");
    EXPECT(are_all(none->bytes, ROUALINT_TAG, 0xFF), "bytes that are no tag's stay");
    before.bytes[0] = 4;
    EXPECT(roualint_state(&before) == ROUALINT_NO_TAG && !is_tag(&before), "a fifth state");
    before.bytes[0] = ROUALINT_IAM_INIT;
    before.bytes[1] = 1;
    EXPECT(roualint_state(&before) == ROUALINT_IAM_INIT && is_tag(&before),
           "a challenge that waits under a key of the sheet");
    before.bytes[1] = 99;
    EXPECT(!is_tag(&before), "a challenge that waits under a key that no record has");
    before.bytes[0] = ROUALINT_INITIAL;
    before.bytes[1] = 1;
    EXPECT(!is_tag(&before), "a KeyID that is held in Initial");
    before.bytes[0] = ROUALINT_IA_OK;
    before.bytes[1] = 0;
    before.bytes[15] = 1;
    EXPECT(!is_tag(&before), "a challenge that is held in IA-OK");
    before.bytes[15] = 0;
    EXPECT(is_tag(&before), "IA-OK");
    before.bytes[118] = 17;
    EXPECT(!is_tag(&before), "seventeen locks");
    before.bytes[118] = 16;
    EXPECT(is_tag(&before), "sixteen locks, of no words");
    before.bytes[200] = 17;
    EXPECT(!is_tag(&before), "seventeen key records");
    before.bytes[200] = 16;
    EXPECT(is_tag(&before), "sixteen key records");
    INTACT();
    lent_back();
}

static void tag_authentication(void) {
    struct bench b = annex_f();
    uint8_t *m = lent(ROUALINT_MESSAGE_ROOM);
    struct judged j;
    size_t n;
    BUILT(roualint_build_tam1(0, bytes(ICHALLENGE), m, ROUALINT_MESSAGE_ROOM, &n));
    is_built(m, n, "0000" ICHALLENGE);
    answers(&b, m, n, "6D696372000000000000", "E920530CC781B20CFE1AB4A0144E7335", ROUALINT_INITIAL);
    accepts(judge(ENC0, MAC0, m, n, b.room, b.length, ROUALINT_DATA_ROOM), "", ROUALINT_NO_DATA, "");
    rejects(judge(ENC0, MAC0, m, n, b.room, b.length - 1, ROUALINT_DATA_ROOM), ROUALINT_DATA_ROOM,
            ROUALINT_REPLY_LENGTH);
    rejects(judge(ENC1, MAC0, m, n, b.room, b.length, ROUALINT_DATA_ROOM), ROUALINT_DATA_ROOM,
            ROUALINT_CHALLENGE_WRONG);
    rejects(judge(ENC0, "00", m, n, b.room, b.length, ROUALINT_DATA_ROOM), ROUALINT_DATA_ROOM, ROUALINT_OWN_MESSAGE);
    rejects(judge(ENC0, MAC0, m, n, b.room, b.length, ROUALINT_DATA_ROOM - 1), ROUALINT_DATA_ROOM - 1,
            ROUALINT_OWN_MESSAGE);
    rejects(judge(ENC0, MAC0, m, n - 1, b.room, b.length, ROUALINT_DATA_ROOM), ROUALINT_DATA_ROOM,
            ROUALINT_OWN_MESSAGE);

    /* Rev 0, ProtMode 0: the same block, and the data with no header. */
    memset(m, 0xA5, ROUALINT_MESSAGE_ROOM);
    BUILT(roualint_build_tam2(bytes(ENC0), bytes(MAC0), 16, 0, 0, 0, bytes(ICHALLENGE), 1, 0, 1, 0, m,
                              ROUALINT_MESSAGE_ROOM, &n));
    is_built(m, n, "2000" ICHALLENGE "100010");
    answers(&b, m, n, "6D696372000000000000", "E920530CC781B20CFE1AB4A0144E7335 A16A76656E69617A5265676E756D5475",
            ROUALINT_INITIAL);
    accepts(judge(ENC0, MAC0, m, n, b.room, b.length, ROUALINT_DATA_ROOM), "A16A76656E69617A5265676E756D5475",
            ROUALINT_UNPROVED, "");

    /* Rev 1, ProtMode 3, two blocks of 64 bits (F.16): proved. */
    memset(m, 0xA5, ROUALINT_MESSAGE_ROOM);
    BUILT(roualint_build_tam2(bytes(ENC0), bytes(MAC0), 16, 0, 1, 0, bytes(ICHALLENGE), 1, 0, 1, 3, m,
                              ROUALINT_MESSAGE_ROOM, &n));
    is_built(m, n, "2800" ICHALLENGE "100013");
    answers(&b, m, n, RFID,
            "67039773F2C3C8E8B1D29254BADEF7C9 B86966552DEE705111D4C077009D777C 6D725BCD8DC8FA5C83960148241958C2 "
            "E3546DEA93F24EE9B9799A43",
            ROUALINT_INITIAL);
    accepts(judge(ENC0, MAC0, m, n, b.room, b.length, ROUALINT_DATA_ROOM), "A16A76656E69617A5265676E756D5475",
            ROUALINT_PROVED, "");
    b.room[20] ^= 1;
    rejects(judge(ENC0, MAC0, m, n, b.room, b.length, ROUALINT_DATA_ROOM), ROUALINT_DATA_ROOM, ROUALINT_MAC_WRONG);
    rejects(judge(ENC0, "", m, n, b.room, b.length, ROUALINT_DATA_ROOM), ROUALINT_DATA_ROOM, ROUALINT_OWN_MESSAGE);

    /* ProtMode 0, eight blocks of 16 bits (F.20): unproved. */
    memset(m, 0xA5, ROUALINT_MESSAGE_ROOM);
    BUILT(roualint_build_tam2(bytes(ENC0), bytes(""), 0, 1, 1, 0, bytes(ICHALLENGE), 1, 0, 7, 0, m,
                              ROUALINT_MESSAGE_ROOM, &n));
    is_built(m, n, "3800" ICHALLENGE "100070");
    answers(&b, m, n, RFID,
            "D43EF22E787383D87DAFD67617A7D6EE 88003800A16A76656E69617A5265676E 756D5475000000000000000000000000",
            ROUALINT_INITIAL);
    j = judge(ENC0, "", m, n, b.room, b.length, ROUALINT_DATA_ROOM);
    accepts(j, "A16A76656E69617A5265676E756D5475", ROUALINT_UNPROVED, "");
    b.room[16] ^= 1;
    rejects(judge(ENC0, "", m, n, b.room, b.length, ROUALINT_DATA_ROOM), ROUALINT_DATA_ROOM, ROUALINT_HEADER_WRONG);
    lent_back();
}

static void interrogator_authentication(void) {
    struct bench b = annex_f();
    uint8_t *m = lent(ROUALINT_MESSAGE_ROOM);
    roualint_tag waiting;
    size_t n;
    BUILT(roualint_build_iam1(1, m, ROUALINT_MESSAGE_ROOM, &n));
    is_built(m, n, "4001");
    answers(&b, m, n, TCHALLENGE, TCHALLENGE, ROUALINT_IAM_INIT);
    EXPECT(is_hex(b.tag->bytes, 16, "0101" TCHALLENGE "00000000"), "state, KeyID and TChallenge are held");
    accepts(judge(ENC1, MAC1, m, n, b.room, b.length, ROUALINT_DATA_ROOM), "", ROUALINT_NO_DATA, TCHALLENGE);
    rejects(judge(ENC1, MAC1, m, n, b.room, b.length, ROUALINT_DATA_ROOM - 1), ROUALINT_DATA_ROOM - 1,
            ROUALINT_OWN_MESSAGE);

    /* 7: the tag stays as it was. */
    waiting = *b.tag;
    EXPECT(sends_hex(&b, IAM2, "000000000000000000") == ROUALINT_BENCH_FAULT, "nine draws");
    EXPECT(memcmp(&waiting, b.tag, sizeof waiting) == 0 && b.length == 0, "number 7 changes nothing");

    memset(m, 0xA5, ROUALINT_MESSAGE_ROOM);
    BUILT(roualint_build_iam2(bytes(ENC1), bytes(MAC1), 16, 0, bytes(IRND), bytes(TCHALLENGE), m,
                              ROUALINT_MESSAGE_ROOM, &n));
    is_built(m, n, IAM2);
    lets_in(&b, m, n, 0);
    accepts(judge(ENC1, MAC1, m, n, b.room, 0, ROUALINT_DATA_ROOM), "", ROUALINT_NO_DATA, "");
    rejects(judge(ENC1, MAC1, m, n, b.room, 0, ROUALINT_DATA_ROOM - 1), ROUALINT_DATA_ROOM - 1, ROUALINT_OWN_MESSAGE);
    EXPECT(roualint_power_up(b.tag) == 0 && roualint_state(b.tag) == ROUALINT_INITIAL, "power-up");

    /* Another Purpose is handed out as it came. */
    EXPECT(sends_hex(&b, "4001", TCHALLENGE) == 0, "IAM1");
    BUILT(roualint_build_iam2(bytes(ENC1), bytes(MAC1), 16, 5, bytes(IRND), bytes(TCHALLENGE), m,
                              ROUALINT_MESSAGE_ROOM, &n));
    lets_in(&b, m, n, 5);

    /* IAM3, ProtMode 3, two blocks of 16 bits from the third word on (F.29). */
    EXPECT(sends_hex(&b, "4001", TCHALLENGE) == 0, "IAM1");
    memset(m, 0xA5, ROUALINT_MESSAGE_ROOM);
    BUILT(roualint_build_iam3(bytes(ENC1), bytes(MAC1), 16, 1, 1, 2, 1, 3, 0, bytes(IRND), bytes(TCHALLENGE),
                              bytes("AABBCCDD"), 4, m, ROUALINT_MESSAGE_ROOM, &n));
    is_built(m, n,
             "5C100213 5D3F017B042E02228D26C90DBDB513DA 49E163B8C7A3316BA0A1E3EB62088358 624C8B0CDBE35E089F1C355F");
    lets_in(&b, m, n, 0);
    EXPECT(is_hex(b.identity, 18, "A16A7665AABBCCDD5265676E756D5475756D"), "the words are written, and no others");
    lent_back();
}

static void mutual_authentication(void) {
    struct bench b = annex_f();
    uint8_t *m = lent(ROUALINT_MESSAGE_ROOM);
    size_t n;
    BUILT(roualint_build_mam1(1, bytes(ICHALLENGE), m, ROUALINT_MESSAGE_ROOM, &n));
    is_built(m, n, "8001" ICHALLENGE);
    answers(&b, m, n, VON_BRAUN, "47D77088E9143699215C9D162D8A310A 566F6E204272", ROUALINT_MAM_INIT);
    EXPECT(is_hex(b.tag->bytes, 16, "0201" VON_BRAUN "96C69664"),
           "state, KeyID, TChallenge and IChallenge[31:0] are held");
    accepts(judge(ENC1, MAC1, m, n, b.room, b.length, ROUALINT_DATA_ROOM), "", ROUALINT_NO_DATA, VON_BRAUN);
    rejects(judge(ENC1, MAC1, m, n, b.room, b.length, ROUALINT_DATA_ROOM - 1), ROUALINT_DATA_ROOM - 1,
            ROUALINT_OWN_MESSAGE);
    memset(m, 0xA5, ROUALINT_MESSAGE_ROOM);
    BUILT(roualint_build_mam2(bytes(ENC1), bytes(MAC1), 16, 0, bytes(ICHALLENGE), bytes(VON_BRAUN), m,
                              ROUALINT_MESSAGE_ROOM, &n));
    is_built(m, n, "90 F537798C9E30CF1999E3C52A7994BD93");
    lets_in(&b, m, n, 0);

    /* Another Purpose is handed out as it came. */
    EXPECT(sends_hex(&b, "8001" ICHALLENGE, VON_BRAUN) == 0, "MAM1");
    BUILT(roualint_build_mam2(bytes(ENC1), bytes(MAC1), 16, 14, bytes(ICHALLENGE), bytes(VON_BRAUN), m,
                              ROUALINT_MESSAGE_ROOM, &n));
    lets_in(&b, m, n, 14);
    lent_back();
}

/* Profile 0 over words 4 to 271 of area 1: IAM3 writes there and TAM2 reads, in blocks of both sizes, with Offsets of
 * two bytes. */
static void user_area(void) {
    struct bench b = tag_of("013D0F 02 0000 0110 03 01 01 0001" ENC1 MAC1 "04 00 01 0004 010C 06");
    const uint8_t *enc = bytes(ENC1), *mac = bytes(MAC1), *challenge = bytes(ICHALLENGE), *issued = bytes(TCHALLENGE),
                  *irnd = bytes(IRND);
    uint8_t *m = lent(ROUALINT_MESSAGE_ROOM);
    const size_t room = ROUALINT_MESSAGE_ROOM;
    size_t n;
    EXPECT(b.identity_length == 0 && b.user_length == 544, "the areas' sizes");

    /* One block of 64 bits at Offset 2: words 12 to 15. */
    EXPECT(sends_hex(&b, "4001", TCHALLENGE) == 0, "IAM1");
    BUILT(roualint_build_iam3(enc, mac, 16, 0, 0, 2, 0, 3, 9, irnd, issued, bytes("0011223344556677"), 8, m, room, &n));
    lets_in(&b, m, n, 9);
    EXPECT(is_hex(b.user + 24, 8, "0011223344556677"), "the words are written");
    EXPECT(are_all(b.user, 24, 0xA5) && are_all(b.user + 32, 544 - 32, 0xA5), "and no others");

    /* Two blocks of 16 bits at Offset 258: words 262 and 263. */
    EXPECT(sends_hex(&b, "4001", TCHALLENGE) == 0, "IAM1");
    BUILT(roualint_build_iam3(enc, mac, 16, 1, 0, 258, 1, 1, 15, irnd, issued, bytes("AABBCCDD"), 4, m, room, &n));
    lets_in(&b, m, n, 15);
    EXPECT(is_hex(b.user + 524, 4, "AABBCCDD") && is_hex(b.user + 24, 8, "0011223344556677"), "the words are written");
    EXPECT(are_all(b.user + 32, 524 - 32, 0xA5) && are_all(b.user + 528, 16, 0xA5), "and no others");

    /* What was written is read: of the first block, in both sizes, and of the second. */
    memset(m, 0xA5, room);
    BUILT(roualint_build_tam2(enc, mac, 16, 0, 1, 1, challenge, 0, 2, 0, 3, m, room, &n));
    is_built(m, n, "2801" ICHALLENGE "000203");
    EXPECT(sends(&b, m, n, RFID) == 0, "TAM2");
    accepts(judge(ENC1, MAC1, m, n, b.room, b.length, ROUALINT_DATA_ROOM), "0011223344556677", ROUALINT_PROVED, "");
    BUILT(roualint_build_tam2(enc, mac, 16, 1, 1, 1, challenge, 0, 9, 2, 3, m, room, &n));
    is_built(m, n, "3801" ICHALLENGE "000923");
    EXPECT(sends(&b, m, n, RFID) == 0, "TAM2");
    accepts(judge(ENC1, MAC1, m, n, b.room, b.length, ROUALINT_DATA_ROOM), "223344556677", ROUALINT_PROVED, "");
    BUILT(roualint_build_tam2(enc, mac, 16, 1, 1, 1, challenge, 0, 258, 1, 2, m, room, &n));
    is_built(m, n, "3801" ICHALLENGE "010212");
    EXPECT(sends(&b, m, n, RFID) == 0, "TAM2");
    accepts(judge(ENC1, MAC1, m, n, b.room, b.length, ROUALINT_DATA_ROOM), "AABBCCDD", ROUALINT_PROVED, "");

    /* Word 272 is behind the profile. */
    refuses(&b, "3801" ICHALLENGE "010C00", ROUALINT_MEMORY_OVERRUN);
    EXPECT(roualint_message(b.tag, m, n, bytes(RFID), 10, b.room, 172, b.identity, 0, b.user, 543, &n, &b.purpose) == 7,
           "an area of 543");
    lent_back();
}

static void tag_refusals(void) {
    struct bench b = annex_f();
    roualint_tag before = *b.tag;
    size_t n, length = 99;
    uint8_t purpose = 99;
    const uint8_t *m = hex("0000" ICHALLENGE, &n);
    refuses(&b, "", ROUALINT_OTHER_ERROR);
    refuses(&b, "00", ROUALINT_OTHER_ERROR);
    refuses(&b, "0002" ICHALLENGE, ROUALINT_NOT_SUPPORTED);
    refuses(&b, "2800" ICHALLENGE "100020", ROUALINT_MEMORY_OVERRUN);
    refuses(&b, IAM2, ROUALINT_OUT_OF_TURN);
    EXPECT(sends_hex(&b, "4001", TCHALLENGE) == 0, "IAM1");
    refuses(&b, "50 2C79B76E2EF8B47F6DC4E861EA2F3D5F", ROUALINT_PROOF_WRONG);

    EXPECT(roualint_message(b.tag, m, n, bytes(RFID), 10, b.room, 171, b.identity, 18, b.user, 0, &length, &purpose) ==
               7,
           "a room of 171");
    EXPECT(roualint_message(b.tag, m, n, bytes(RFID), 10, b.room, 172, b.identity, 17, b.user, 0, &length, &purpose) ==
               7,
           "an area of 17");
    EXPECT(memcmp(&before, b.tag, sizeof before) == 0, "number 7 changes nothing");
    memset(b.tag, 0xFF, sizeof *b.tag);
    EXPECT(sends_hex(&b, "4001", TCHALLENGE) == ROUALINT_BENCH_FAULT && are_all(b.tag->bytes, ROUALINT_TAG, 0xFF),
           "bytes that are no tag's");
    EXPECT(are_all(b.room, 172, 0xA5) && is_hex(b.identity, 18, MEMORY), "nothing is written");
    lent_back();
}

int main(void) {
    sizes();
    sheets();
    tag_authentication();
    interrogator_authentication();
    mutual_authentication();
    user_area();
    tag_refusals();
    builder_refusals();
    cipher_and_chaining();
    large_inputs();
    puts("bindings/c: Annex F's TAM1, TAM2, IAM2, IAM3 and MAM through both halves; Rev 0; Purposes; a user area; "
         "numbers 1 to 3, 5 to 8, 20 to 24, 30, "
         "32, 35; layout; guards; 64 MB in 64 KB of stack");
    return 0;
}
