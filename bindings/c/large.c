#define _DEFAULT_SOURCE
#include "plain.h"

#include "annexf.h"
#include "lent.h"
#include "roualint.h"

#include <pthread.h>
#include <string.h>
#include <sys/mman.h>

#define LARGE ((size_t)64 << 20)

/* The stack's upper bytes, which alone can be used: a system may want a thread to have more (aarch64: 128 KB). */
#define STACK ((size_t)64 << 10)
#define MAPPED ((size_t)256 << 10)

/* Of the blocks one in so many is compared with the cipher's; there is no factor that it shares with a power of 2. */
#define STRIDE ((size_t)997)

typedef uint8_t form(const uint8_t *, const uint8_t *, const uint8_t *, size_t, uint8_t *, size_t);
typedef void cipher(const uint8_t *, uint8_t *);

static const uint8_t ZEROS[16];

/* Byte i of the input. */
static uint8_t byte_at(size_t i) {
    return (uint8_t)((uint32_t)i * 2654435761u >> 24);
}

static void add(uint8_t *to, const uint8_t *block) {
    size_t i;
    for (i = 0; i < 16; i++)
        to[i] ^= block[i];
}

/* An ENC form with an IV of zeros, of which each output block that is looked at is the cipher's, of the input block and
 * the output block before it. */
static void is_chained(form *enc, cipher *way, const uint8_t *key, const uint8_t *input, uint8_t *output) {
    uint8_t block[16];
    size_t at;
    EXPECT(enc(ZEROS, key, input, LARGE, output, LARGE) == 0, "the ENC form of 64 MB");
    for (at = 0; at < LARGE; at += 16 * STRIDE) {
        memcpy(block, input + at, 16);
        add(block, at == 0 ? ZEROS : output + at - 16);
        way(key, block);
        EXPECT(memcmp(block, output + at, 16) == 0, "chained to the output block before it");
    }
}

/* What the ENC form made of the input, into the input's place. */
static void is_undone(form *dec, const uint8_t *key, const uint8_t *output, uint8_t *input) {
    size_t i;
    memset(input, 0, LARGE);
    EXPECT(dec(ZEROS, key, output, LARGE, input, LARGE) == 0, "the DEC form of 64 MB");
    for (i = 0; i < LARGE; i++)
        EXPECT(input[i] == byte_at(i), "the DEC form undoes the ENC form");
}

/* The last block of CBC_ENC_AES with an IV of zeros is the CMAC of the same input with K1 (SP 800-38B, 6.1) added to
 * its last block. */
static void mac_is_last(const uint8_t *key, uint8_t *input, const uint8_t *output) {
    uint8_t k1[16] = {0}, mac[12], high;
    size_t i;
    roualint_aes_enc(key, k1);
    high = k1[0] >> 7;
    for (i = 0; i < 16; i++)
        k1[i] = (uint8_t)(k1[i] << 1 | (i < 15 ? k1[i + 1] >> 7 : 0));
    k1[15] ^= (uint8_t)(high * 0x87);

    add(input + LARGE - 16, k1);
    EXPECT(roualint_cmac_96(key, input, LARGE, mac, 12) == 0, "the MAC of 64 MB");
    add(input + LARGE - 16, k1);
    EXPECT(memcmp(mac, output + LARGE - 16, 12) == 0, "the MAC is the last block of the chain");
}

static void *all_forms(void *none) {
    uint8_t *input = lent(LARGE), *output = lent(LARGE);
    const uint8_t *key = bytes(MAC0);
    size_t i;
    for (i = 0; i < LARGE; i++)
        input[i] = byte_at(i);
    is_chained(roualint_cbc_enc_aes, roualint_aes_enc, key, input, output);
    mac_is_last(key, input, output);
    is_undone(roualint_cbc_dec_aes_inv, key, output, input);
    is_chained(roualint_cbc_enc_aes_inv, roualint_aes_dec, key, input, output);
    is_undone(roualint_cbc_dec_aes, key, output, input);
    INTACT();
    lent_back();
    return none;
}

void large_inputs(void) {
    pthread_t thread;
    pthread_attr_t attributes;
    uint8_t *stack = mmap(NULL, MAPPED, PROT_NONE, MAP_PRIVATE | MAP_ANONYMOUS, -1, 0);
    EXPECT(stack != MAP_FAILED && mprotect(stack + MAPPED - STACK, STACK, PROT_READ | PROT_WRITE) == 0,
           "64 KB of stack");
    EXPECT(pthread_attr_init(&attributes) == 0 && pthread_attr_setstack(&attributes, stack, MAPPED) == 0, "the stack");
    EXPECT(pthread_create(&thread, &attributes, all_forms, NULL) == 0 && pthread_join(thread, NULL) == 0, "a thread");
    pthread_attr_destroy(&attributes);
    munmap(stack, MAPPED);
}
