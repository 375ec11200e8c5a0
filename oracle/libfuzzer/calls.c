/* The calls under libFuzzer, with an output, a tree and a text in memory of just their lengths.
 *
 * The library is not instrumented: AddressSanitizer sees what it copies through memcpy, memmove and memset, and libFuzzer
 * does not see its branches. Instead every answer is told to libFuzzer as a counter, so that it keeps the inputs that are
 * answered in a new way. There is no oracle here: what is held is what the header says of any input. */
#include "kinyandoma.h"

#include <stdlib.h>
#include <string.h>

enum {
    RECORD = KINYANDOMA_RECORD,
    COUNT = 1,          /* where a record's numbers begin, each of so many bytes */
    LINE = 9,
    COLUMN = 17,
    NUMBER = 8,
    HEAD = 6,           /* bytes of an input before tree and text, or record and value */
    BEFORE = 0xEE,      /* what stands in an output before a call */
    PLACES = 4096,      /* places told apart */
    NUMBERS = 13,       /* one more than the last number of an answer */
    LONGEST = 1 << 20,  /* longer texts are measured only */
    NO_ROOM = 8,
    OPEN_SOURCE = 9,
    OTHER_ROWID = 10
};

__attribute__((used, section("__libfuzzer_extra_counters"))) static uint8_t counters[2][NUMBERS][PLACES];

/* Ends the program where something does not hold. */
static void hold(int so) {
    if (!so) {
        abort();
    }
}

static uint32_t number(uint64_t answer) {
    return (uint32_t)(answer >> 32);
}

static uint32_t place(uint64_t answer) {
    return (uint32_t)answer;
}

static void tell(int call, uint64_t answer) {
    hold(number(answer) < NUMBERS);
    counters[call][number(answer)][place(answer) % PLACES] = 1;
}

/* A copy in memory of just its length; of one byte where there is none, since a pointer must not be null. */
static uint8_t *copied(const uint8_t *bytes, size_t length) {
    uint8_t *copy = malloc(length ? length : 1);
    hold(copy != NULL);
    memcpy(copy, bytes, length);
    return copy;
}

static uint8_t *output(size_t length) {
    uint8_t *out = malloc(length ? length : 1);
    hold(out != NULL);
    memset(out, BEFORE, length);
    return out;
}

/* Whether all bytes from one place on are as before. */
static int untouched(const uint8_t *out, size_t from, size_t length) {
    while (from < length && out[from] == BEFORE) {
        from++;
    }
    return from >= length;
}

/* Render agrees with measure, in this room; both with options, or without if there are none. */
static void rendered(const uint32_t *options, const uint8_t *tree, size_t tree_len, const uint8_t *text,
                     size_t text_len, uint64_t measured, size_t room) {
    uint8_t *out = output(room);
    uint64_t answer = options ? kinyandoma_render_with(*options, tree, tree_len, text, text_len, out, room)
                              : kinyandoma_render(tree, tree_len, text, text_len, out, room);
    int fits = number(measured) == 0 && place(measured) <= room;
    if (number(measured) == 0 && !fits) {
        hold(answer == ((uint64_t)NO_ROOM << 32 | place(measured)));
    } else {
        hold(answer == measured);
    }
    hold(untouched(out, fits ? place(measured) : 0, room));
    free(out);
}

/* The two answers are one; or an option refuses what would be admitted or refused by the records; or the SQLite edition
 * writes a longer text. */
static void switched(uint32_t options, uint64_t without, uint64_t with) {
    int strict = (options & KINYANDOMA_STRICT) != 0;
    int sqlite = (options & KINYANDOMA_SQLITE) != 0;
    int by_records = number(without) == 0 || (number(without) >= 3 && number(without) <= 7);
    int refused = (strict && number(with) == OPEN_SOURCE) || (sqlite && number(with) == OTHER_ROWID);
    int longer = sqlite && number(without) == 0 && number(with) == 0 && place(with) > place(without);
    hold(without == with || (by_records && refused) || longer);
}

static void tree_calls(const uint8_t *data, size_t size, size_t split, size_t room, uint32_t options) {
    size_t tree_len = split < size ? split : size;
    size_t text_len = size - tree_len;
    uint8_t *tree = copied(data, tree_len);
    uint8_t *text = copied(data + tree_len, text_len);
    uint64_t without = kinyandoma_measure(tree, tree_len, text, text_len);
    uint64_t with = kinyandoma_measure_with(options, tree, tree_len, text, text_len);
    switched(options, without, with);
    tell(0, with);
    size_t length = number(without) == 0 ? place(without) : 0;
    size_t length_with = number(with) == 0 ? place(with) : 0;
    if (length <= LONGEST && length_with <= LONGEST) {
        rendered(NULL, tree, tree_len, text, text_len, without, length);
        rendered(NULL, tree, tree_len, text, text_len, without, room);
        rendered(&options, tree, tree_len, text, text_len, with, length_with);
        rendered(&options, tree, tree_len, text, text_len, with, room);
        hold(memcmp(tree, data, tree_len) == 0 && memcmp(text, data + tree_len, text_len) == 0);
    }
    free(tree);
    free(text);
}

/* A number of a stream record. */
static uint64_t number_at(const uint8_t *record, int place) {
    uint64_t number = 0;
    for (int at = place + NUMBER - 1; at >= place; at--) {
        number = number << 8 | record[at];
    }
    return number;
}

/* The record before was no malformed one, and that after it follows from it and the bytes that were added. */
static void followed(const uint8_t *before, const uint8_t *after, const uint8_t *added, size_t length) {
    uint64_t line = number_at(before, LINE), column = number_at(before, COLUMN);
    hold(line <= number_at(before, COUNT) && column <= number_at(before, COUNT));
    for (size_t at = 0; at < length; at++) {
        int newline = added[at] == '\n';
        line += newline;
        column = newline ? 0 : column + 1;
    }
    hold(number_at(after, COUNT) == number_at(before, COUNT) + length);
    hold(number_at(after, LINE) == line && number_at(after, COLUMN) == column);
}

static void append_call(const uint8_t *data, size_t size, uint16_t token, size_t room) {
    size_t record_len = size < RECORD ? size : RECORD;
    uint8_t *record = copied(data, record_len);
    uint8_t *value = copied(data + record_len, size - record_len);
    uint8_t *out = output(room);
    uint64_t answer = kinyandoma_append(record, record_len, out, room, token, value, size - record_len);
    tell(1, answer);
    if (number(answer) != 0) {
        hold(untouched(out, 0, room) && memcmp(record, data, record_len) == 0);
    } else {
        followed(data, record, out + number_at(data, COUNT), place(answer));
    }
    hold(memcmp(value, data + record_len, size - record_len) == 0);
    free(record);
    free(value);
    free(out);
}

/* An input: which call, two numbers of two bytes, a byte of options, which stands for their lowest and their highest bits,
 * and the bytes that are lent. */
int LLVMFuzzerTestOneInput(const uint8_t *data, size_t size) {
    if (size < HEAD) {
        return 0;
    }
    uint16_t word = (uint16_t)(data[1] | data[2] << 8);
    size_t room = data[3] | (size_t)(data[4] & 3) << 8;
    if (data[0] & 1) {
        append_call(data + HEAD, size - HEAD, word, room);
    } else {
        tree_calls(data + HEAD, size - HEAD, word, room, data[5] | (uint32_t)data[5] << 24);
    }
    return 0;
}
