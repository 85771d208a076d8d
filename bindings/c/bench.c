#include "bench.h"

#include "annexf.h"
#include "lent.h"

#include <string.h>

enum { LARGEST_AREA = 1024 };

struct bench tag_of(const char *sheet) {
    struct bench b = {0};
    size_t n, place = 99;
    const uint8_t *read = hex(sheet, &n);
    b.tag = (roualint_tag *)lent(sizeof(roualint_tag));
    b.room = lent(ROUALINT_REPLY_ROOM);
    EXPECT(roualint_sheet(read, n, b.tag, &place) == 0 && place == 0, "the sheet is accepted");
    EXPECT(roualint_areas(b.tag, &b.identity_length, &b.user_length) == 0, "the areas' sizes");
    EXPECT(b.identity_length <= LARGEST_AREA && b.user_length <= LARGEST_AREA, "areas of the test itself");
    b.identity = lent(b.identity_length);
    b.user = lent(b.user_length);
    INTACT();
    return b;
}

struct bench annex_f(void) {
    struct bench b = tag_of(SHEET);
    EXPECT(b.identity_length == 18 && b.user_length == 0, "the areas' sizes");
    memcpy(b.identity, bytes(MEMORY), 18);
    return b;
}

uint8_t sends(struct bench *b, const uint8_t *message, size_t n, const char *draws) {
    size_t draw_count;
    const uint8_t *drawn = hex(draws, &draw_count);
    uint8_t number;
    b->length = 99;
    b->purpose = 99;
    number = roualint_message(b->tag, message, n, drawn, draw_count, b->room, ROUALINT_REPLY_ROOM, b->identity,
                              b->identity_length, b->user, b->user_length, &b->length, &b->purpose);
    INTACT();
    return number;
}

uint8_t sends_hex(struct bench *b, const char *message, const char *draws) {
    size_t n;
    const uint8_t *m = hex(message, &n);
    return sends(b, m, n, draws);
}

/* Accepted, with this reply and this Purpose, in this state. */
static void takes(struct bench *b, const uint8_t *message, size_t n, const char *draws, const char *reply,
                  uint8_t purpose, uint8_t state) {
    memset(b->room, 0xA5, ROUALINT_REPLY_ROOM);
    EXPECT(sends(b, message, n, draws) == 0, "the message is accepted");
    EXPECT(is_hex(b->room, b->length, reply), "the reply");
    EXPECT(are_all(b->room + b->length, ROUALINT_REPLY_ROOM - b->length, 0xA5), "behind the reply the room stays");
    EXPECT(b->purpose == purpose, "the Purpose");
    EXPECT(roualint_state(b->tag) == state, "the state");
}

void answers(struct bench *b, const uint8_t *message, size_t n, const char *draws, const char *reply, uint8_t state) {
    takes(b, message, n, draws, reply, ROUALINT_NO_PURPOSE, state);
}

void lets_in(struct bench *b, const uint8_t *message, size_t n, uint8_t purpose) {
    takes(b, message, n, NO_DRAWS, "", purpose, ROUALINT_IA_OK);
}

void refuses(struct bench *b, const char *message, uint8_t number) {
    uint8_t identity[LARGEST_AREA], user[LARGEST_AREA];
    memcpy(identity, b->identity, b->identity_length);
    memcpy(user, b->user, b->user_length);
    memset(b->room, 0xA5, ROUALINT_REPLY_ROOM);
    EXPECT(sends_hex(b, message, NO_DRAWS) == number, "the number of the refusal");
    EXPECT(b->length == 0 && b->purpose == ROUALINT_NO_PURPOSE, "a refusal tells no reply and no Purpose");
    EXPECT(are_all(b->room, ROUALINT_REPLY_ROOM, 0xA5), "a refusal writes nothing into the room");
    EXPECT(memcmp(identity, b->identity, b->identity_length) == 0, "a refusal writes nothing into area 0");
    EXPECT(memcmp(user, b->user, b->user_length) == 0, "a refusal writes nothing into area 1");
    EXPECT(are_all(b->tag->bytes, 16, 0) && roualint_state(b->tag) == ROUALINT_INITIAL, "a refusal ends in Initial");
}

struct judged judge(const char *enc, const char *mac, const uint8_t *m, size_t n, const uint8_t *reply, size_t k,
                    size_t room) {
    struct judged j = {99, NULL, 99, 99, 99, NULL};
    size_t mac_length;
    const uint8_t *mac_key = hex(mac, &mac_length);
    j.room = lent(room);
    j.challenge = lent(10);
    j.number = roualint_judge(bytes(enc), mac_key, mac_length, m, n, reply, k, j.room, room, &j.length, &j.worth,
                              &j.issued, j.challenge);
    INTACT();
    return j;
}

void accepts(struct judged j, const char *data, uint8_t worth, const char *challenge) {
    EXPECT(j.number == 0, "the reply is accepted");
    EXPECT(is_hex(j.room, j.length, data) && are_all(j.room + j.length, ROUALINT_DATA_ROOM - j.length, 0xA5),
           "the data");
    EXPECT(j.worth == worth, "what the data are worth");
    EXPECT(j.issued == (challenge[0] != '\0'), "whether a challenge came");
    EXPECT(j.issued ? is_hex(j.challenge, 10, challenge) : are_all(j.challenge, 10, 0), "the challenge");
}

void rejects(struct judged j, size_t room, uint8_t number) {
    EXPECT(j.number == number, "the number of the judgement");
    EXPECT(j.length == 0 && j.worth == ROUALINT_NO_DATA && are_all(j.room, room, 0xA5), "a refusal hands no data over");
    EXPECT(j.issued == 0 && are_all(j.challenge, 10, 0), "a refusal hands no challenge over");
}

void is_built(const uint8_t *room, size_t n, const char *message) {
    EXPECT(is_hex(room, n, message), "the message");
    EXPECT(are_all(room + n, ROUALINT_MESSAGE_ROOM - n, 0xA5), "behind the message the room stays");
    INTACT();
}
