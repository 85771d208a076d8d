/* Bytes that are lent to the library, with guards on both sides: what a call writes outside of them, or into bytes that
 * it may only read, is found by lent_intact. */
#ifndef LENT_H
#define LENT_H

#include <stddef.h>
#include <stdint.h>

/* Ends the program with a message where something differs. */
#define EXPECT(truth, what) expect((truth) != 0, (what), __FILE__, __LINE__)
void expect(int truth, const char *what, const char *file, int line);

/* n bytes to be written, all of them 0xA5. */
uint8_t *lent(size_t n);

/* The bytes of hex digits, which may only be read; *n is how many. */
const uint8_t *hex(const char *digits, size_t *n);

/* The same, without the number. */
const uint8_t *bytes(const char *digits);

/* Are these the bytes of hex digits? Are n bytes from here on all b? */
int is_hex(const uint8_t *found, size_t n, const char *digits);
int are_all(const uint8_t *found, size_t n, uint8_t b);

/* Is every guard as it was, and every byte that may only be read? */
void lent_intact(const char *file, int line);
#define INTACT() lent_intact(__FILE__, __LINE__)

/* Takes all of it back. */
void lent_back(void);

#endif
