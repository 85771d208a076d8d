#include "lent.h"

#include <stdio.h>
#include <stdlib.h>
#include <string.h>

/* The guard's length is odd, so that all that is lent stands at an odd place. */
enum { GUARD = 33, MOST = 256, GUARD_BYTE = 0xC3, FRESH_BYTE = 0xA5 };

struct loan {
    uint8_t *all;    /* guard, bytes, guard */
    uint8_t *shadow; /* a copy of bytes that may only be read; else null */
    size_t n;
};

static struct loan loans[MOST];
static size_t loan_count;

void expect(int truth, const char *what, const char *file, int line) {
    if (!truth) {
        fprintf(stderr, "%s:%d: %s\n", file, line, what);
        exit(1);
    }
}

static struct loan *new_loan(size_t n) {
    struct loan *loan;
    EXPECT(loan_count < MOST, "more is lent than the test has places for");
    loan = &loans[loan_count++];
    loan->all = malloc(n + 2 * GUARD);
    EXPECT(loan->all != NULL, "no memory");
    memset(loan->all, GUARD_BYTE, n + 2 * GUARD);
    loan->shadow = NULL;
    loan->n = n;
    return loan;
}

uint8_t *lent(size_t n) {
    struct loan *loan = new_loan(n);
    memset(loan->all + GUARD, FRESH_BYTE, n);
    return loan->all + GUARD;
}

static int digit(char c) {
    if (c >= '0' && c <= '9')
        return c - '0';
    if (c >= 'A' && c <= 'F')
        return c - 'A' + 10;
    return -1;
}

/* The bytes of hex digits, blanks between them left out, into a place that has room for them. */
static size_t read_hex(const char *digits, uint8_t *into) {
    size_t n = 0;
    while (*digits != '\0') {
        if (*digits == ' ') {
            digits++;
            continue;
        }
        EXPECT(digit(digits[0]) >= 0 && digit(digits[1]) >= 0, "hex digits of the test itself");
        into[n++] = (uint8_t)(digit(digits[0]) * 16 + digit(digits[1]));
        digits += 2;
    }
    return n;
}

const uint8_t *hex(const char *digits, size_t *n) {
    uint8_t read[512];
    struct loan *loan;
    EXPECT(strlen(digits) <= 2 * sizeof read, "hex digits of the test itself");
    *n = read_hex(digits, read);
    loan = new_loan(*n);
    memcpy(loan->all + GUARD, read, *n);
    loan->shadow = malloc(*n + 1);
    EXPECT(loan->shadow != NULL, "no memory");
    memcpy(loan->shadow, read, *n);
    return loan->all + GUARD;
}

const uint8_t *bytes(const char *digits) {
    size_t n;
    return hex(digits, &n);
}

int is_hex(const uint8_t *found, size_t n, const char *digits) {
    uint8_t read[512];
    EXPECT(strlen(digits) <= 2 * sizeof read, "hex digits of the test itself");
    return read_hex(digits, read) == n && memcmp(found, read, n) == 0;
}

int are_all(const uint8_t *found, size_t n, uint8_t b) {
    size_t i;
    for (i = 0; i < n; i++)
        if (found[i] != b)
            return 0;
    return 1;
}

void lent_intact(const char *file, int line) {
    size_t i;
    for (i = 0; i < loan_count; i++) {
        const struct loan *loan = &loans[i];
        expect(are_all(loan->all, GUARD, GUARD_BYTE), "a byte before what was lent is written", file, line);
        expect(are_all(loan->all + GUARD + loan->n, GUARD, GUARD_BYTE), "a byte behind what was lent is written", file,
               line);
        if (loan->shadow != NULL)
            expect(memcmp(loan->all + GUARD, loan->shadow, loan->n) == 0, "a byte that may only be read is written",
                   file, line);
    }
}

void lent_back(void) {
    size_t i;
    for (i = 0; i < loan_count; i++) {
        free(loans[i].all);
        free(loans[i].shadow);
    }
    loan_count = 0;
}
