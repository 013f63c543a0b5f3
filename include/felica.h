/*
 * FeliCa Standard commands for C and C++: the parser, the list reader and the writer of libfelica_c.a.
 *
 * The contracts are proved of the functions (crates/felica_c_*, a crate each); this file says them in words. No proof
 * covers the caller's side, so a call that breaks one of these rules has undefined behaviour:
 *
 * - No pointer is null, also where its length is 0. Pointers to uint16_t and size_t are aligned for their type.
 * - A length stands behind its pointer and counts elements, not bytes. An array without a length has the size that
 *   the prototype gives. All elements are there and hold values; in memory lent for writing, any values.
 * - What one pointer lends is at most PTRDIFF_MAX bytes.
 * - Memory lent for writing (no const) overlaps no other memory lent to the same call. Memory lent for reading
 *   (const) may overlap other memory lent for reading.
 * - While a call runs, nobody else writes what it is lent, or reads what it is lent for writing.
 *
 * The functions keep no state and allocate nothing. Any number of threads may call them at the same time. They fail
 * in no other way than by the numbered refusals, and a refusal changes no byte that was lent.
 *
 * The archive is for x86-64 Linux, on processors of the level x86-64-v2 (with SSE4.2). It has an object file for each
 * of the seven functions, so that a program gets those alone that it calls: 42 KB of code (.text.*) and 3 KB of
 * constants (.rodata.*) in all, 3 to 5 KB for a parser. It has no data, no constructors and no tables for unwinding,
 * and is position independent. The writer needs memcpy and memset from outside, the parser and the list reader nothing.
 *
 * Of the stack the parser takes at most 152 bytes, the list reader 226, the writer 288 and what memcpy and memset
 * take. This is with the return address and with what lies below the stack pointer, where the calling convention
 * grants 128 bytes; each argument behind the sixth is 8 bytes besides. The figures were read from the instructions, and
 * a stack that was filled with a pattern before the call showed the same (rattle-kit-13f).
 *
 * A freestanding program for x86-64 can use all seven: this header includes <stddef.h> and <stdint.h> alone, and gcc
 * and clang ask for memcpy, memmove and memset in any case. An interrupt that runs on the same stack must leave the 128
 * bytes below the stack pointer as they are, and the SSE registers.
 *
 * Another processor, such as that of a card, has no archive. But the card's own parser can be held to this one on the
 * host: both are given the same frame, and must tell the same refusal, code, fields and parts. crates/felica/stdin has
 * some 6,400 frames and payloads for this among its lines (those that begin with F, P or S), and crates/felica/stdout
 * the right answers, in refusal, code and fields; docs/CALLS.md has their form.
 *
 * Codes in comments are hexadecimal, counts and refusal numbers decimal.
 */
#ifndef FELICA_H
#define FELICA_H

#include <stddef.h>
#include <stdint.h>

/* That of the package rust/felica. While MAJOR is 0, another MINOR may ask callers to be changed. */
#define FELICA_VERSION_MAJOR 0
#define FELICA_VERSION_MINOR 2

#ifdef __cplusplus
extern "C" {
#endif

/* The command codes; those behind Get Container ID are secure. */
enum felica_code {
    FELICA_POLLING_COMMAND_CODE = 0x00,
    FELICA_REQUEST_SERVICE_COMMAND_CODE = 0x02,
    FELICA_REQUEST_RESPONSE_COMMAND_CODE = 0x04,
    FELICA_READ_WITHOUT_ENCRYPTION_COMMAND_CODE = 0x06,
    FELICA_WRITE_WITHOUT_ENCRYPTION_COMMAND_CODE = 0x08,
    FELICA_SEARCH_SERVICE_CODE_COMMAND_CODE = 0x0A,
    FELICA_REQUEST_SYSTEM_CODE_COMMAND_CODE = 0x0C,
    FELICA_REQUEST_BLOCK_INFORMATION_COMMAND_CODE = 0x0E,
    FELICA_AUTHENTICATION1_COMMAND_CODE = 0x10,
    FELICA_AUTHENTICATION2_COMMAND_CODE = 0x12,
    FELICA_REQUEST_CODE_LIST_COMMAND_CODE = 0x1A,
    FELICA_REQUEST_BLOCK_INFORMATION_EX_COMMAND_CODE = 0x1E,
    FELICA_SET_PARAMETER_COMMAND_CODE = 0x20,
    FELICA_GET_CONTAINER_ISSUE_INFORMATION_COMMAND_CODE = 0x22,
    FELICA_GET_AREA_INFORMATION_COMMAND_CODE = 0x24,
    FELICA_GET_NODE_PROPERTY_COMMAND_CODE = 0x28,
    FELICA_GET_CONTAINER_PROPERTY_COMMAND_CODE = 0x2E,
    FELICA_REQUEST_SERVICE_V2_COMMAND_CODE = 0x32,
    FELICA_GET_SYSTEM_STATUS_COMMAND_CODE = 0x38,
    FELICA_REQUEST_PRODUCT_INFORMATION_COMMAND_CODE = 0x3A,
    FELICA_REQUEST_SPECIFICATION_VERSION_COMMAND_CODE = 0x3C,
    FELICA_RESET_MODE_COMMAND_CODE = 0x3E,
    FELICA_AUTHENTICATION1_V2_COMMAND_CODE = 0x40,
    FELICA_AUTHENTICATION2_V2_COMMAND_CODE = 0x42,
    FELICA_GET_CONTAINER_ID_COMMAND_CODE = 0x70,
    FELICA_READ_COMMAND_CODE = 0x14,
    FELICA_WRITE_COMMAND_CODE = 0x16,
    FELICA_READ_V2_COMMAND_CODE = 0x44,
    FELICA_WRITE_V2_COMMAND_CODE = 0x46,
    FELICA_REGISTER_ISSUE_ID_COMMAND_CODE = 0x80,
    FELICA_REGISTER_AREA_COMMAND_CODE = 0x82,
    FELICA_REGISTER_SERVICE_COMMAND_CODE = 0x84,
    FELICA_CHANGE_SYSTEM_BLOCK_COMMAND_CODE = 0x8E
};

/* The grounds of a refusal. "First" and "second" count in field order; a secure block count is a first. */
enum felica_refusal {
    FELICA_OK = 0,                          /* no refusal */
    FELICA_EMPTY_FRAME = 1,                 /* empty frame */
    FELICA_LENGTH_BYTE_WRONG = 2,           /* length byte is not the frame's size */
    FELICA_EMPTY_PAYLOAD = 3,               /* payload empty */
    FELICA_SECURE_CODE = 4,                 /* secure code in a plain frame or payload */
    FELICA_UNKNOWN_CODE = 5,                /* code unknown here; a plain code is unknown as a secure one */
    FELICA_IDM_MISSING = 6,                 /* IDm missing */
    FELICA_TOO_SHORT = 7,                   /* too short; challenge, operation or type byte missing */
    FELICA_TRAILING_BYTES = 8,              /* bytes past the layout; 8E not empty */
    FELICA_FIRST_COUNT_MISSING = 9,         /* first count missing */
    FELICA_FIRST_COUNT_OUT_OF_RANGE = 10,   /* first count outside its range */
    FELICA_SECOND_COUNT_MISSING = 11,       /* second count missing */
    FELICA_SECOND_COUNT_OUT_OF_RANGE = 12,  /* second count outside its range */
    FELICA_CODE_LIST_TRUNCATED = 13,        /* code list cut off */
    FELICA_BLOCK_LIST_TRUNCATED = 14,       /* element's first byte missing */
    FELICA_SHORT_BLOCK_NUMBER_MISSING = 15, /* short block number missing */
    FELICA_LONG_BLOCK_NUMBER_MISSING = 16,  /* long block number not whole */
    FELICA_DATA_TRUNCATED = 17,             /* data cut off */
    FELICA_RESERVED_NOT_ZERO = 18,          /* reserved byte not 00 */
    FELICA_FIRST_TYPE_UNDEFINED = 19,       /* request code, encryption type or property type undefined */
    FELICA_SECOND_TYPE_UNDEFINED = 20,      /* time slots or packet type undefined */
    FELICA_BUFFER_TOO_SMALL = 21,           /* lent buffer too small; list reader and writer only */
    FELICA_UNWRITABLE = 22                  /* no accepted frame or secure payload gives this command; writer only */
};

/* The places in `fields`. SELECTOR, OPTION and CHOICE hold one byte, 255 at most; NUMBER and INDEX two. */
enum felica_field {
    FELICA_SELECTOR = 0,
    FELICA_NUMBER = 1,
    FELICA_INDEX = 2,
    FELICA_OPTION = 3,
    FELICA_CHOICE = 4,
    FELICA_FIELDS = 5 /* how many there are */
};

/*
 * The places in `parts`: for each part of the payload where it begins and how many entries it has. An entry of FIRST
 * and SECOND is a code of two bytes, low byte first. An entry of BLOCK_LIST is an element: its first byte has in bits
 * 6 to 4 the access mode and in bits 3 to 0 the place in the service list, counted from 0; behind it stands the block
 * number, one byte where bit 7 is set, two, low byte first, where it is clear. An entry of DATA and PACKAGE is a byte.
 *
 * A start counts from the payload's first byte. The payload of a frame begins behind the length byte, so that a part
 * of a frame stands at frame[1 + start]. Of a payload, plain or secure, it stands at payload[start]. A part lies
 * inside the payload. Start and count are 0 where the command lacks the part; the start of a part that it has is not
 * 0, even if the part is empty.
 */
enum felica_part {
    FELICA_FIRST_START = 0,
    FELICA_FIRST_COUNT = 1,
    FELICA_SECOND_START = 2,
    FELICA_SECOND_COUNT = 3,
    FELICA_BLOCK_LIST_START = 4,
    FELICA_BLOCK_LIST_COUNT = 5,
    FELICA_DATA_START = 6,
    FELICA_DATA_COUNT = 7,
    FELICA_PACKAGE_START = 8,
    FELICA_PACKAGE_COUNT = 9,
    FELICA_PARTS = 10 /* how many there are */
};

/*
 * What each command has. All else of `idm`, `challenge`, `fields` and `parts` is zero.
 *
 *   code                  idm  challenge  fields                          parts
 *   00                    -    -          NUMBER system code,             -
 *                                         OPTION request code,
 *                                         CHOICE time slots
 *   02, 0E, 1E, 32        yes  -          -                               FIRST
 *   04, 0C, 22, 38, 3A,   yes  -          -                               -
 *     3C, 3E
 *   06                    yes  -          -                               FIRST, BLOCK_LIST
 *   08                    yes  -          -                               FIRST, BLOCK_LIST, DATA
 *   0A                    yes  -          NUMBER service index            -
 *   10                    yes  8 bytes    -                               FIRST areas, SECOND services
 *   12                    yes  8 bytes    -                               -
 *   1A                    yes  -          NUMBER parent node code, INDEX  -
 *   20                    yes  -          OPTION encryption type,         -
 *                                         CHOICE packet type
 *   24                    yes  -          NUMBER node code                -
 *   28                    yes  -          SELECTOR node property type     FIRST
 *   2E                    -    -          NUMBER container property       -
 *   40                    yes  16 bytes   SELECTOR operation parameter    FIRST
 *   42                    yes  16 bytes   -                               -
 *   70                    -    -          -                               -
 *   secure:
 *   14, 44                -    -          -                               BLOCK_LIST
 *   16, 46                -    -          -                               BLOCK_LIST, DATA
 *   80                    -    16 bytes   -                               PACKAGE
 *   82                    -    -          NUMBER area code                PACKAGE
 *   84                    -    -          NUMBER service code             PACKAGE
 *   8E                    -    -          -                               -
 *
 * A challenge of 8 bytes has eight zeros behind it. Of 80, `challenge` holds the issue id, then the issue parameter.
 */

enum felica_size {
    FELICA_IDM_SIZE = 8,       /* bytes of an IDm */
    FELICA_CHALLENGE_SIZE = 16 /* bytes lent for a challenge */
};

enum felica_limit {
    FELICA_MAX_FRAME = 255, /* bytes of the longest frame */
    FELICA_MAX_CODES = 32,  /* codes of the longest code list, first or second */
    FELICA_MAX_BLOCKS = 255 /* elements of the longest block list */
};

/*
 * A command: `refusal` is FELICA_OK, `code` the command code, and `long_count` how many elements of BLOCK_LIST were in
 * the long form, with a block number of two bytes. A refusal: its number, the code, 0 for 1 to 3, and the count 0.
 */
struct felica_answer {
    uint8_t refusal;
    uint8_t code;
    uint16_t long_count;
};

/*
 * Written: `refusal` is FELICA_OK and `length` the bytes written. A refusal: its number, 21 or 22, and the length 0.
 * The payload of 8E has the length 0 too: test `refusal`, not `length`.
 */
struct felica_written {
    uint8_t refusal;
    size_t length;
};

/*
 * The parser. For a command it writes the whole of `idm`, `challenge`, `fields` and `parts`, zero where the command
 * lacks them. A refusal is one of 1 to 20 and leaves the four as they were.
 *
 * felica_parse_frame takes a frame: a length byte that is the frame's size, then the payload of a plain command.
 */
struct felica_answer felica_parse_frame(const uint8_t *frame, size_t frame_len, uint8_t idm[FELICA_IDM_SIZE],
                                        uint8_t challenge[FELICA_CHALLENGE_SIZE], uint16_t fields[FELICA_FIELDS],
                                        size_t parts[FELICA_PARTS]);

/* Takes the payload of a plain command, which begins with the code byte and may be longer than a frame can be. */
struct felica_answer felica_parse_payload(const uint8_t *payload, size_t payload_len, uint8_t idm[FELICA_IDM_SIZE],
                                          uint8_t challenge[FELICA_CHALLENGE_SIZE], uint16_t fields[FELICA_FIELDS],
                                          size_t parts[FELICA_PARTS]);

/*
 * Takes a secure code and its decrypted payload, which has no code byte. Bytes behind the layout of 14, 16, 44 and 46
 * are ignored.
 */
struct felica_answer felica_parse_secure_payload(uint8_t command_code, const uint8_t *payload, size_t payload_len,
                                                 uint8_t idm[FELICA_IDM_SIZE], uint8_t challenge[FELICA_CHALLENGE_SIZE],
                                                 uint16_t fields[FELICA_FIELDS], size_t parts[FELICA_PARTS]);

/*
 * The list reader. It does what the parser does and for a command also writes its lists: the codes of FIRST to
 * `first`, those of SECOND to `second`, and of each element of BLOCK_LIST the block number to `numbers`, the place in
 * the service list to `places` and the access mode to `modes`. Elements behind a list keep their values.
 *
 * It parses first. Where that gives a command, 21 comes exactly when a buffer is shorter than its list. Lengths of
 * FELICA_MAX_CODES for `first` and `second` and of FELICA_MAX_BLOCKS for the others are always enough. Any refusal, 21
 * too, leaves the five buffers and `idm`, `challenge`, `fields` and `parts` as they were. The length of a list is its
 * count in `parts`.
 */
struct felica_answer felica_list_frame(const uint8_t *frame, size_t frame_len, uint16_t *first, size_t first_len,
                                       uint16_t *second, size_t second_len, uint16_t *numbers, size_t numbers_len,
                                       uint8_t *places, size_t places_len, uint8_t *modes, size_t modes_len,
                                       uint8_t idm[FELICA_IDM_SIZE], uint8_t challenge[FELICA_CHALLENGE_SIZE],
                                       uint16_t fields[FELICA_FIELDS], size_t parts[FELICA_PARTS]);

/* The same of what felica_parse_payload takes. */
struct felica_answer felica_list_payload(const uint8_t *payload, size_t payload_len, uint16_t *first, size_t first_len,
                                         uint16_t *second, size_t second_len, uint16_t *numbers, size_t numbers_len,
                                         uint8_t *places, size_t places_len, uint8_t *modes, size_t modes_len,
                                         uint8_t idm[FELICA_IDM_SIZE], uint8_t challenge[FELICA_CHALLENGE_SIZE],
                                         uint16_t fields[FELICA_FIELDS], size_t parts[FELICA_PARTS]);

/* The same of what felica_parse_secure_payload takes. */
struct felica_answer felica_list_secure_payload(uint8_t command_code, const uint8_t *payload, size_t payload_len,
                                                uint16_t *first, size_t first_len, uint16_t *second, size_t second_len,
                                                uint16_t *numbers, size_t numbers_len, uint8_t *places,
                                                size_t places_len, uint8_t *modes, size_t modes_len,
                                                uint8_t idm[FELICA_IDM_SIZE], uint8_t challenge[FELICA_CHALLENGE_SIZE],
                                                uint16_t fields[FELICA_FIELDS], size_t parts[FELICA_PARTS]);

/*
 * The writer. It writes the frame of a plain command or the payload of a secure one to `out` and answers its length.
 * Block numbers below 256 are in short form, and no tail is written, so that this is the shortest form. Bytes of `out`
 * behind it keep their values. The parser reads what was written as the command handed in.
 *
 * A field that the command lacks must be zero, idm and challenge too, and a list that it lacks empty. Of 10 and 12 the
 * last eight bytes of challenge must be zero. 22 comes exactly when no accepted frame and no accepted secure payload
 * gives the command: among other things where a field or a list is there that the command lacks, a value is undefined,
 * a count is outside its range, `numbers`, `places` and `modes` differ in length, a place is above 15 or an access mode
 * above 7, `data` is not 16 bytes an element, the code is unknown, or the frame would be longer than 255 bytes.
 * Otherwise 21 comes exactly when the shortest form is longer than `out`. A refusal leaves `out` as it was. It is one of
 * the command whose code was handed in; the answer does not repeat that code.
 *
 * What the list reader gave goes back in as it came: the code, `idm`, `challenge` and the five of `fields`, the five
 * buffers with the counts in `parts` as lengths, and the bytes of DATA and PACKAGE where they stand. Of a frame and of
 * a secure payload this is never 22. Of a payload given to felica_parse_payload it is 22 where the shortest form would
 * not fit in a frame.
 *
 * `fields` holds uint16_t, and `selector`, `option` and `choice` are uint8_t. What the parser or the list reader wrote
 * there is 255 at most, and a conversion loses nothing. A value from elsewhere must be tested before it is converted:
 * C drops its upper byte, and the writer sees only what is left.
 */
struct felica_written felica_write(uint8_t code, const uint8_t idm[FELICA_IDM_SIZE],
                                   const uint8_t challenge[FELICA_CHALLENGE_SIZE], uint8_t selector, uint16_t number,
                                   uint16_t index, uint8_t option, uint8_t choice, const uint16_t *first,
                                   size_t first_len, const uint16_t *second, size_t second_len, const uint16_t *numbers,
                                   size_t numbers_len, const uint8_t *places, size_t places_len, const uint8_t *modes,
                                   size_t modes_len, const uint8_t *data, size_t data_len, const uint8_t *package,
                                   size_t package_len, uint8_t *out, size_t out_len);

#ifdef __cplusplus
}
#endif

#endif
