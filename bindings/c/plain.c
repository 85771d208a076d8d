#include "plain.h"

#include "annexf.h"
#include "lent.h"
#include "roualint.h"

#include <string.h>

/* Refused by 24, and no length is told. */
#define REFUSED(call, what) (n = 99, EXPECT((call) == ROUALINT_OWN_MESSAGE && n == 0, what))

void builder_refusals(void) {
    uint8_t *m = lent(ROUALINT_MESSAGE_ROOM);
    const uint8_t *enc = bytes(ENC0), *mac = bytes(MAC0), *i = bytes(ICHALLENGE), *irnd = bytes(IRND),
                  *word = bytes("AABB");
    const size_t room = ROUALINT_MESSAGE_ROOM;
    size_t n;
    REFUSED(roualint_build_tam1(0, i, m, room - 1, &n), "TAM1 into 175 bytes");
    REFUSED(roualint_build_tam2(enc, mac, 16, 0, 1, 0, i, 0, 0, 0, 0, m, room - 1, &n), "TAM2 into 175 bytes");
    REFUSED(roualint_build_iam1(0, m, room - 1, &n), "IAM1 into 175 bytes");
    REFUSED(roualint_build_iam2(enc, mac, 16, 0, irnd, i, m, room - 1, &n), "IAM2 into 175 bytes");
    REFUSED(roualint_build_iam3(enc, mac, 16, 1, 0, 0, 0, 0, 0, irnd, i, word, 2, m, room - 1, &n),
            "IAM3 into 175 bytes");
    REFUSED(roualint_build_mam1(0, i, m, room - 1, &n), "MAM1 into 175 bytes");
    REFUSED(roualint_build_mam2(enc, mac, 16, 0, i, i, m, room - 1, &n), "MAM2 into 175 bytes");
    REFUSED(roualint_build_tam2(enc, mac, 15, 0, 1, 0, i, 0, 0, 0, 0, m, room, &n), "a MAC key of 15 bytes");
    REFUSED(roualint_build_tam2(enc, mac, 0, 0, 1, 0, i, 0, 0, 0, 2, m, room, &n), "ProtMode 2 and no MAC key");
    REFUSED(roualint_build_tam2(enc, mac, 16, 2, 1, 0, i, 0, 0, 0, 0, m, room, &n), "BlockSize 2");
    REFUSED(roualint_build_tam2(enc, mac, 16, 0, 2, 0, i, 0, 0, 0, 0, m, room, &n), "Rev 2");
    REFUSED(roualint_build_tam2(enc, mac, 16, 0, 1, 0, i, 16, 0, 0, 0, m, room, &n), "Profile 16");
    REFUSED(roualint_build_tam2(enc, mac, 16, 0, 1, 0, i, 0, 4096, 0, 0, m, room, &n), "Offset 4,096");
    REFUSED(roualint_build_tam2(enc, mac, 16, 0, 1, 0, i, 0, 0, 16, 0, m, room, &n), "BlockCount 16");
    REFUSED(roualint_build_tam2(enc, mac, 16, 0, 1, 0, i, 0, 0, 0, 4, m, room, &n), "ProtMode 4");
    REFUSED(roualint_build_iam2(enc, mac, 16, 16, irnd, i, m, room, &n), "Purpose 16");
    REFUSED(roualint_build_iam3(enc, mac, 16, 0, 0, 0, 0, 0, 0, irnd, i, word, 2, m, room, &n),
            "two bytes for a block of 64 bits");
    REFUSED(roualint_build_mam2(enc, bytes(MAC0 "00"), 17, 0, i, i, m, room, &n), "a MAC key of 17 bytes");
    EXPECT(are_all(m, room, 0xA5), "a refusal writes nothing");
    INTACT();
    lent_back();
}

void cipher_and_chaining(void) {
    typedef uint8_t form(const uint8_t *, const uint8_t *, const uint8_t *, size_t, uint8_t *, size_t);
    form *forms[4] = {roualint_cbc_enc_aes, roualint_cbc_dec_aes_inv, roualint_cbc_enc_aes_inv, roualint_cbc_dec_aes};
    const uint8_t *key = bytes(MAC0), *iv = bytes(ENC0),
                  *text = bytes("6BC1BEE22E409F96E93D7E117393172AAE2D8A571E03AC9C9EB76FAC45AF8E51");
    uint8_t *block = lent(16), *one = lent(40), *two = lent(40);
    int i;
    memcpy(block, bytes("00112233445566778899AABBCCDDEEFF"), 16);
    roualint_aes_enc(iv, block);
    EXPECT(is_hex(block, 16, "69C4E0D86A7B0430D8CDB78070B4C55A"), "FIPS 197, C.1");
    roualint_aes_dec(iv, block);
    EXPECT(is_hex(block, 16, "00112233445566778899AABBCCDDEEFF"), "AES-DEC undoes AES-ENC");

    EXPECT(roualint_cbc_enc_aes(iv, key, text, 32, one, 40) == 0, "CBC_ENC_AES");
    EXPECT(is_hex(one, 32, "7649ABAC8119B246CEE98E9B12E9197D5086CB9B507219EE95DB113A917678B2"), "SP 800-38A, F.2.1");
    EXPECT(are_all(one + 32, 8, 0xA5), "behind the output the room stays");
    for (i = 0; i < 4; i += 2) {
        EXPECT(forms[i](iv, key, text, 32, one, 40) == 0 && forms[i + 1](iv, key, one, 32, two, 32) == 0, "two forms");
        EXPECT(memcmp(two, text, 32) == 0 && are_all(two + 32, 8, 0xA5), "the DEC form undoes the ENC form");
    }
    EXPECT(roualint_cmac_96(key, text, 16, two, 12) == 0 && is_hex(two, 12, "070A16B46B4D4144F79BDD9D"),
           "SP 800-38B, D.1");
    EXPECT(memcmp(two + 12, text + 12, 20) == 0, "twelve bytes are written");

    memset(one, 0xA5, 40);
    for (i = 0; i < 4; i++)
        EXPECT(forms[i](iv, key, text, 31, one, 40) == 8 && forms[i](iv, key, text, 32, one, 31) == 8,
               "number 8 of a form");
    EXPECT(roualint_cmac_96(key, text, 0, one, 40) == 8 && roualint_cmac_96(key, text, 15, one, 40) == 8,
           "number 8 of the MAC");
    EXPECT(roualint_cmac_96(key, text, 16, one, 11) == 8 && are_all(one, 40, 0xA5), "a refusal writes nothing");
    INTACT();
    lent_back();
}
