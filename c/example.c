/*
 * Parses frames and writes them again. Each argument is a frame in hexadecimal; an empty one is the empty frame.
 * Without arguments it takes the frames of `samples`.
 *
 *     gcc -std=c11 -I include c/example.c target/staticlib/libfelica_c.a -o example
 *     ./example 10060102030405060708010B10018000 02
 *
 * It ends with 0 if every argument was hexadecimal, refused or not, else with 1.
 */
#include "felica.h"

#include <stdbool.h>
#include <stdio.h>
#include <string.h>

/* Longer than any frame, so that the parser can be seen to refuse. */
enum { MAX_INPUT = 1024 };

struct bytes {
    uint8_t at[MAX_INPUT];
    size_t count;
};

struct command {
    uint8_t code;
    uint8_t idm[FELICA_IDM_SIZE];
    uint8_t challenge[FELICA_CHALLENGE_SIZE];
    uint16_t fields[FELICA_FIELDS];
    size_t parts[FELICA_PARTS];
    uint16_t first[FELICA_MAX_CODES];
    uint16_t second[FELICA_MAX_CODES];
    uint16_t numbers[FELICA_MAX_BLOCKS];
    uint8_t places[FELICA_MAX_BLOCKS];
    uint8_t modes[FELICA_MAX_BLOCKS];
};

static const char *const samples[] = {
    "0600FFFF0001",                     /* Polling */
    "10060102030405060708010B10018000", /* a read of block 0 */
    /* a read of block 0 in long form, which is written back shorter, and of block 256 */
    "11060102030405060708010B1001000000",
    "11060102030405060708010B1001000001",
    /* a write of one block, place 0, access mode 1 */
    "200801020304050607080109100190057F000102030405060708090A0B0C0D0E",
    "1A10010203040506070801000002091009118182838485868788", /* Authentication1, one area and two services */
    "0E28010203040506070801013412",                         /* Get Node Property */
    "",                                                     /* 1 */
    "01",                                                   /* 3 */
    "0204",                                                 /* 6 */
    "0600FFFF0002",                                         /* 20 */
};

static const char *const grounds[] = {
    "a command",
    "empty frame",
    "length byte is not the frame's size",
    "payload empty",
    "secure code in a plain frame or payload",
    "code unknown here",
    "IDm missing",
    "too short",
    "bytes past the layout",
    "first count missing",
    "first count outside its range",
    "second count missing",
    "second count outside its range",
    "code list cut off",
    "element's first byte missing",
    "short block number missing",
    "long block number not whole",
    "data cut off",
    "reserved byte not 00",
    "request code, encryption type or property type undefined",
    "time slots or packet type undefined",
    "lent buffer too small",
    "no accepted frame or secure payload gives this command",
};

static const char *ground(uint8_t refusal) {
    return refusal < sizeof grounds / sizeof grounds[0] ? grounds[refusal] : "unknown number";
}

static bool digit_value(char digit, uint8_t *value) {
    static const char digits[] = "0123456789ABCDEF0123456789abcdef";
    const char *found = digit == '\0' ? NULL : strchr(digits, digit);
    if (found == NULL) {
        return false;
    }
    *value = (uint8_t)((found - digits) % 16);
    return true;
}

static bool read_hex(const char *text, struct bytes *bytes) {
    size_t length = strlen(text);
    bytes->count = 0;
    for (size_t i = 0; i < length; i++) {
        uint8_t value = 0;
        if (!digit_value(text[i], &value)) {
            fprintf(stderr, "example: character %zu of \"%s\" is no hexadecimal digit\n", i + 1, text);
            return false;
        }
        if (i / 2 >= MAX_INPUT) {
            fprintf(stderr, "example: \"%.16s...\" is longer than %d bytes\n", text, MAX_INPUT);
            return false;
        }
        bytes->at[i / 2] = (uint8_t)(i % 2 == 0 ? value << 4 : bytes->at[i / 2] | value);
    }
    if (length % 2 != 0) {
        fprintf(stderr, "example: the last digit of \"%s\" has no second one; a byte is two digits\n", text);
        return false;
    }
    bytes->count = length / 2;
    return true;
}

static void print_bytes(const char *name, const uint8_t *bytes, size_t count) {
    printf("  %s ", name);
    for (size_t i = 0; i < count; i++) {
        printf("%02X", bytes[i]);
    }
    printf("%s\n", count == 0 ? "none" : "");
}

static void print_codes(const char *name, const uint16_t *codes, size_t count) {
    printf("  %s", name);
    for (size_t i = 0; i < count; i++) {
        printf(" %04X", codes[i]);
    }
    printf("%s\n", count == 0 ? " none" : "");
}

static void print_fixed(const struct command *command) {
    const uint16_t *fields = command->fields;
    if (command->code != FELICA_POLLING_COMMAND_CODE && command->code != FELICA_GET_CONTAINER_PROPERTY_COMMAND_CODE &&
        command->code != FELICA_GET_CONTAINER_ID_COMMAND_CODE) {
        print_bytes("IDm", command->idm, sizeof command->idm);
    }
    if (command->code == FELICA_AUTHENTICATION1_COMMAND_CODE || command->code == FELICA_AUTHENTICATION2_COMMAND_CODE) {
        print_bytes("challenge", command->challenge, 8);
    }
    if (command->code == FELICA_AUTHENTICATION1_V2_COMMAND_CODE ||
        command->code == FELICA_AUTHENTICATION2_V2_COMMAND_CODE) {
        print_bytes("challenge", command->challenge, sizeof command->challenge);
    }
    printf("  selector %02X, number %04X, index %04X, option %02X, choice %02X\n", fields[FELICA_SELECTOR],
           fields[FELICA_NUMBER], fields[FELICA_INDEX], fields[FELICA_OPTION], fields[FELICA_CHOICE]);
}

/* A part that the command lacks has the start 0. */
static void print_lists(const struct command *command, const uint8_t *payload) {
    const size_t *parts = command->parts;
    if (parts[FELICA_FIRST_START] != 0) {
        print_codes("first codes", command->first, parts[FELICA_FIRST_COUNT]);
    }
    if (parts[FELICA_SECOND_START] != 0) {
        print_codes("second codes", command->second, parts[FELICA_SECOND_COUNT]);
    }
    for (size_t i = 0; i < parts[FELICA_BLOCK_LIST_COUNT]; i++) {
        printf("  block %04X, place %u, access mode %u\n", command->numbers[i], command->places[i], command->modes[i]);
    }
    if (parts[FELICA_DATA_START] != 0) {
        print_bytes("data", payload + parts[FELICA_DATA_START], parts[FELICA_DATA_COUNT]);
    }
}

static struct felica_answer list(const struct bytes *frame, struct command *command) {
    return felica_list_frame(frame->at, frame->count, command->first, FELICA_MAX_CODES, command->second,
                             FELICA_MAX_CODES, command->numbers, FELICA_MAX_BLOCKS, command->places, FELICA_MAX_BLOCKS,
                             command->modes, FELICA_MAX_BLOCKS, command->idm, command->challenge, command->fields,
                             command->parts);
}

/* The conversions to uint8_t lose nothing: the three fields are bytes. */
static struct felica_written write_again(const struct command *command, const uint8_t *payload, struct bytes *out) {
    const uint16_t *fields = command->fields;
    const size_t *parts = command->parts;
    size_t blocks = parts[FELICA_BLOCK_LIST_COUNT];
    return felica_write(command->code, command->idm, command->challenge, (uint8_t)fields[FELICA_SELECTOR],
                        fields[FELICA_NUMBER], fields[FELICA_INDEX], (uint8_t)fields[FELICA_OPTION],
                        (uint8_t)fields[FELICA_CHOICE], command->first, parts[FELICA_FIRST_COUNT], command->second,
                        parts[FELICA_SECOND_COUNT], command->numbers, blocks, command->places, blocks, command->modes,
                        blocks, payload + parts[FELICA_DATA_START], parts[FELICA_DATA_COUNT],
                        payload + parts[FELICA_PACKAGE_START], parts[FELICA_PACKAGE_COUNT], out->at, MAX_INPUT);
}

static void print_written(const struct bytes *frame, const struct command *command, const uint8_t *payload) {
    struct bytes out = {{0}, 0};
    struct felica_written written = write_again(command, payload, &out);
    if (written.refusal != FELICA_OK) {
        printf("  not written: %u, %s\n", written.refusal, ground(written.refusal));
    } else if (written.length == frame->count && memcmp(out.at, frame->at, frame->count) == 0) {
        printf("  written back: the same bytes\n");
    } else {
        printf("  written back: %zu bytes instead of %zu\n", written.length, frame->count);
        print_bytes("that is", out.at, written.length);
    }
}

static void print_refusal(struct felica_answer answer) {
    if (answer.refusal > FELICA_EMPTY_PAYLOAD) {
        printf("  command %02X\n", answer.code);
    }
    printf("  refused: %u, %s\n", answer.refusal, ground(answer.refusal));
}

static void print_frame(const struct bytes *frame) {
    struct command command = {0};
    struct felica_answer answer =
        felica_parse_frame(frame->at, frame->count, command.idm, command.challenge, command.fields, command.parts);
    if (answer.refusal == FELICA_OK) {
        answer = list(frame, &command);
    }
    if (answer.refusal != FELICA_OK) {
        print_refusal(answer);
        return;
    }
    const uint8_t *payload = frame->at + 1;
    command.code = answer.code;
    printf("  command %02X\n", command.code);
    print_fixed(&command);
    print_lists(&command, payload);
    if (answer.long_count != 0) {
        printf("  elements in long form: %u\n", answer.long_count);
    }
    print_written(frame, &command, payload);
}

static bool print_text(const char *text) {
    static struct bytes frame;
    if (!read_hex(text, &frame)) {
        return false;
    }
    printf("frame %s\n", frame.count == 0 ? "of no bytes" : text);
    print_frame(&frame);
    return true;
}

int main(int argc, char **argv) {
    bool good = true;
    if (argc < 2) {
        for (size_t i = 0; i < sizeof samples / sizeof samples[0]; i++) {
            good = print_text(samples[i]) && good;
        }
    }
    for (int i = 1; i < argc; i++) {
        good = print_text(argv[i]) && good;
    }
    return good && fflush(stdout) == 0 ? 0 : 1;
}
