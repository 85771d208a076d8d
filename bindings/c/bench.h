/* A tag with its areas, what it answers, and what the reader's side says to that. */
#ifndef BENCH_H
#define BENCH_H

#include "roualint.h"

/* A tag, what is lent to it, and what the last call told. */
struct bench {
    roualint_tag *tag;
    uint8_t *room;
    uint8_t *identity;
    size_t identity_length;
    uint8_t *user;
    size_t user_length;
    size_t length;
    uint8_t purpose;
};

/* The tag of a sheet, at its power-up, with areas of its sizes whose bytes are all 0xA5. */
struct bench tag_of(const char *sheet);

/* Annex F's tag, with its memory. */
struct bench annex_f(void);

/* A builder's call that gives a message. */
#define BUILT(call) EXPECT((call) == ROUALINT_ACCEPTED, "the message is built")

/* One message; the number that the tag gives. */
uint8_t sends(struct bench *b, const uint8_t *message, size_t n, const char *draws);
uint8_t sends_hex(struct bench *b, const char *message, const char *draws);

/* Accepted, with this reply, in this state, and no reader is let in; what lies behind the reply in the room stays. */
void answers(struct bench *b, const uint8_t *message, size_t n, const char *draws, const char *reply, uint8_t state);

/* Accepted: the reader is let in, with this Purpose and an empty reply. */
void lets_in(struct bench *b, const uint8_t *message, size_t n, uint8_t purpose);

/* Refused by this number: nothing but the tag has changed, and that is in Initial and holds nothing. */
void refuses(struct bench *b, const char *message, uint8_t number);

/* What the judge says, with a room of so many bytes. */
struct judged {
    uint8_t number;
    uint8_t *room;
    size_t length;
    uint8_t worth;
    uint8_t issued;
    uint8_t *challenge;
};

struct judged judge(const char *enc, const char *mac, const uint8_t *m, size_t n, const uint8_t *reply, size_t k,
                    size_t room);

/* Accepted, with these data of this worth, or with this challenge. Refused by this number, with nothing handed over. */
void accepts(struct judged j, const char *data, uint8_t worth, const char *challenge);
void rejects(struct judged j, size_t room, uint8_t number);

/* The message in a room is this one, and behind it the room stays. */
void is_built(const uint8_t *room, size_t n, const char *message);

#endif
