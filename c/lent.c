/*
 * The memory lent to parser and list reader, before and after a call: a command writes all of it, a refusal nothing.
 * This is C11 and C++17. It prints what fails and ends with 1, or prints nothing and ends with 0.
 */
#include "felica.h"

#include <assert.h>
#include <stddef.h>
#include <stdio.h>
#include <string.h>

/* What the archive was compiled with (crates/felica_c_parse_frame/src/lib.rt, crates/felica_c/src/answer.rt). */
static_assert(FELICA_IDM_SIZE == 8, "bytes of idm");
static_assert(FELICA_CHALLENGE_SIZE == 16, "bytes of challenge");
static_assert(FELICA_FIELDS == 5, "numbers of fields");
static_assert(FELICA_PARTS == 10, "numbers of parts");
static_assert(sizeof(struct felica_answer) == 4 && offsetof(struct felica_answer, code) == 1 &&
                  offsetof(struct felica_answer, long_count) == 2,
              "layout of an answer");
static_assert(sizeof(struct felica_written) == 16 && offsetof(struct felica_written, length) == 8,
              "layout of what the writer answers");

struct lent {
    uint8_t idm[FELICA_IDM_SIZE];
    uint8_t challenge[FELICA_CHALLENGE_SIZE];
    uint16_t fields[FELICA_FIELDS];
    size_t parts[FELICA_PARTS];
};

static int failures = 0;

static void expect(int holds, const char *what) {
    if (!holds) {
        printf("%s\n", what);
        failures++;
    }
}

static int same(const struct lent *a, const struct lent *b) {
    return memcmp(a->idm, b->idm, sizeof a->idm) == 0 && memcmp(a->challenge, b->challenge, sizeof a->challenge) == 0 &&
           memcmp(a->fields, b->fields, sizeof a->fields) == 0 && memcmp(a->parts, b->parts, sizeof a->parts) == 0;
}

/* An answer with no long element. */
static int is(struct felica_answer answer, uint8_t refusal, uint8_t code) {
    return answer.refusal == refusal && answer.code == code && answer.long_count == 0;
}

static struct lent filled(void) {
    struct lent lent;
    memset(&lent, 0xA5, sizeof lent);
    return lent;
}

static void commands(void) {
    static const uint8_t polling[] = {0x06, 0x00, 0xFF, 0xFF, 0x00, 0x01};
    static const struct lent of_polling = {{0}, {0}, {0, 0xFFFF, 0, 0, 1}, {0}};
    static const uint8_t authentication[] = {0x16, 0x10, 1,    2,    3,    4,    5,    6,    7,    8,    0,
                                             1,    9,    0x10, 0x81, 0x82, 0x83, 0x84, 0x85, 0x86, 0x87, 0x88};
    static const struct lent of_authentication = {{1, 2, 3, 4, 5, 6, 7, 8},
                                                  {0x81, 0x82, 0x83, 0x84, 0x85, 0x86, 0x87, 0x88},
                                                  {0},
                                                  {10, 0, 11, 1}};
    struct lent lent = filled();
    struct felica_answer answer =
        felica_parse_frame(polling, sizeof polling, lent.idm, lent.challenge, lent.fields, lent.parts);
    expect(is(answer, FELICA_OK, 0x00) && same(&lent, &of_polling), "Polling");
    lent = filled();
    answer = felica_parse_payload(authentication + 1, sizeof authentication - 1, lent.idm, lent.challenge, lent.fields,
                                  lent.parts);
    expect(is(answer, FELICA_OK, 0x10) && same(&lent, &of_authentication), "Authentication1");
    lent = filled();
    static const struct lent of_8e = {{0}, {0}, {0}, {0}};
    answer = felica_parse_secure_payload(0x8E, polling, 0, lent.idm, lent.challenge, lent.fields, lent.parts);
    expect(is(answer, FELICA_OK, 0x8E) && same(&lent, &of_8e), "8E");
}

/* A read of the blocks 0, short, 0 and 256, long; then the last byte is missing. */
static void long_forms(void) {
    static const uint8_t payload[] = {0x03, 0x80, 0x00, 0x00, 0x00, 0x00, 0x00, 0x00, 0x01};
    struct lent lent = filled();
    struct felica_answer answer =
        felica_parse_secure_payload(0x14, payload, sizeof payload, lent.idm, lent.challenge, lent.fields, lent.parts);
    expect(answer.refusal == FELICA_OK && answer.code == 0x14 && answer.long_count == 2, "two long elements");
    answer = felica_parse_secure_payload(0x14, payload, sizeof payload - 1, lent.idm, lent.challenge, lent.fields,
                                         lent.parts);
    expect(is(answer, FELICA_LONG_BLOCK_NUMBER_MISSING, 0x14), "the last long element cut off");
}

static void refusals(void) {
    static const uint8_t bytes[] = {0x02, 0x04};
    const struct lent before = filled();
    struct lent lent = filled();
    struct felica_answer answer = felica_parse_frame(bytes, 0, lent.idm, lent.challenge, lent.fields, lent.parts);
    expect(is(answer, FELICA_EMPTY_FRAME, 0) && same(&lent, &before), "no frame");
    answer = felica_parse_frame(bytes, 2, lent.idm, lent.challenge, lent.fields, lent.parts);
    expect(is(answer, FELICA_IDM_MISSING, 0x04) && same(&lent, &before), "frame without IDm");
    answer = felica_parse_payload(bytes, 0, lent.idm, lent.challenge, lent.fields, lent.parts);
    expect(is(answer, FELICA_EMPTY_PAYLOAD, 0) && same(&lent, &before), "no payload");
    answer = felica_parse_secure_payload(0x8E, bytes, 2, lent.idm, lent.challenge, lent.fields, lent.parts);
    expect(is(answer, FELICA_TRAILING_BYTES, 0x8E) && same(&lent, &before), "8E not empty");
}

static void too_small(void) {
    static const uint8_t frame[] = {0x0D, 0x02, 1, 2, 3, 4, 5, 6, 7, 8, 1, 0x0B, 0x10};
    const struct lent before = filled();
    struct lent lent = filled();
    uint16_t codes[3] = {7, 7, 7};
    uint8_t bytes[2] = {7, 7};
    struct felica_answer answer =
        felica_list_frame(frame, sizeof frame, codes, 0, codes + 1, 1, codes + 2, 1, bytes, 1, bytes + 1, 1, lent.idm,
                          lent.challenge, lent.fields, lent.parts);
    expect(is(answer, FELICA_BUFFER_TOO_SMALL, 0x02) && same(&lent, &before), "21");
    expect(codes[0] == 7 && codes[1] == 7 && codes[2] == 7 && bytes[0] == 7 && bytes[1] == 7, "buffers after 21");
    answer = felica_list_payload(frame + 1, sizeof frame - 1, codes, 1, codes + 1, 1, codes + 2, 1, bytes, 1, bytes + 1,
                                 1, lent.idm, lent.challenge, lent.fields, lent.parts);
    expect(is(answer, FELICA_OK, 0x02) && lent.parts[FELICA_FIRST_START] == 10 && codes[0] == 0x100B,
           "list of one code");
    expect(codes[1] == 7 && codes[2] == 7 && bytes[0] == 7 && bytes[1] == 7, "buffers without a list");
}

int main(void) {
    commands();
    long_forms();
    refusals();
    too_small();
    return failures == 0 ? 0 : 1;
}
