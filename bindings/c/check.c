/* Calls the functions of libkinyandoma.a on good and bad input, as a C program does.
 *
 * What is expected is document 01's: section 6 for the cases, section 3 for the numbers and places; 12 is document 02's,
 * request ii, 9 its request vii, 10 its request viii, 11 its request xi, line and column are its request ix, and jobs its
 * request i; lexemes are its request iii. Around every lent part stand known bytes, which must stay. One line a case, and
 * `N passed, M failed` at the end. */
#include "kinyandoma.h"

#include <stdio.h>
#include <string.h>

enum {
    RECORD = KINYANDOMA_RECORD,
    LONGER = RECORD + 1,   /* a byte more than a record has */
    COUNT = 1,             /* where a record's numbers begin */
    LINE = 9,
    COLUMN = 17,
    NUMBER = 8,            /* bytes of each of them */
    MOST = 65536,          /* most bytes of a tree, a text or a value */
    GUARD = 32,            /* known bytes on each side of what is lent */
    ROOM = 1024,           /* most room that a case gives */
    BEFORE = 0xEE,         /* what stands in an output and around it */
    VALUE_PRESENT = 0x8000 /* bit 15 of a token: a value is there */
};

/* Token numbers of token.rs. */
enum {
    TK_SEMI = 1,
    TK_BEGIN = 5,
    TK_END = 11,
    TK_LP = 22,
    TK_RP = 23,
    TK_COMMA = 25,
    TK_ID = 60,
    TK_DOT = 142,
    TK_BLOB = 154,
    NO_TOKEN = 169,
    TK_LBRACKET = 189,
    TK_RBRACKET = 190
};

static int passed, failed;

/* Counts a case, and tells it. */
static void tell(const char *name, int as_expected) {
    printf("%s: %s\n", as_expected ? "passed" : "FAILED", name);
    as_expected ? passed++ : failed++;
}

/* An answer as the header packs it. */
static uint64_t answer(uint32_t number, uint32_t place) {
    return (uint64_t)number << 32 | place;
}

/* Whether all bytes from one place to another are as they were before the call. */
static int untouched(const uint8_t *bytes, size_t from, size_t to) {
    while (from < to && bytes[from] == BEFORE) {
        from++;
    }
    return from >= to;
}

/* A part to be lent for writing, with bytes around it that must stay. */
typedef struct {
    uint8_t bytes[GUARD + ROOM + GUARD];
} lent;

static void prepare(lent *part) {
    memset(part->bytes, BEFORE, sizeof part->bytes);
}

/* Whether the part begins with the expected bytes, and nothing else in it or around it has changed. */
static int holds(const lent *part, const void *expected, size_t length) {
    const uint8_t *inner = part->bytes + GUARD;
    return memcmp(inner, expected, length) == 0 && untouched(part->bytes, 0, GUARD) &&
           untouched(part->bytes, GUARD + length, sizeof part->bytes);
}

/* ---- streams: section 6, S1 to S12, and values with newlines */

typedef struct {
    uint16_t token;
    const char *value; /* NULL where there is none */
} token;

typedef struct {
    const char *name;
    token tokens[9];
    size_t count;
    const char *text;
} stream_case;

static const stream_case STREAMS[] = {
    {"S1", {{0, NULL}}, 0, ""},
    {"S2", {{TK_ID, "a"}, {TK_COMMA, NULL}, {TK_ID, "b"}}, 3, "a, b"},
    {"S3", {{TK_ID, "a"}, {TK_DOT, NULL}, {TK_ID, "b"}}, 3, "a.b"},
    {"S4", {{TK_ID, "f"}, {TK_LP, NULL}, {TK_ID, "x"}, {TK_RP, NULL}}, 4, "f (x)"},
    {"S5", {{TK_ID, "INT"}, {TK_LBRACKET, NULL}, {TK_RBRACKET, NULL}}, 3, "INT[]"},
    {"S6", {{TK_BLOB, NULL}, {TK_ID, "a"}}, 2, "X''a"},
    {"S7", {{TK_ID, "a"}, {TK_BLOB, NULL}, {TK_COMMA, NULL}}, 3, "a X'',"},
    {"S8", {{TK_BEGIN, "\n"}, {TK_ID, "x"}, {TK_SEMI, "\n"}, {TK_END, NULL}}, 4, "BEGIN\nx;\nEND"},
    {"S9", {{TK_ID, "a"}, {TK_ID, ""}, {TK_ID, "b"}}, 3, "a b"},
    {"S10", {{TK_BEGIN, ""}, {TK_END, NULL}}, 2, "BEGINEND"},
    {"S11", {{TK_ID, "\x0B"}, {TK_ID, "a"}}, 2, "\x0B a"},
    {"S12", {{TK_LP, "z"}, {TK_ID, "b"}}, 2, "(z b"},
    {"lines: a newline at the start", {{TK_ID, "\na"}, {TK_ID, "b"}}, 2, "\na b"},
    {"lines: a newline at the end", {{TK_ID, "a\n"}, {TK_ID, "\n"}, {TK_ID, "b"}}, 3, "a\n \nb"},
    {"lines: several in one value", {{TK_ID, "a\n\nbc\nd"}, {TK_COMMA, NULL}}, 2, "a\n\nbc\nd,"},
    {"lines: 0D is none", {{TK_ID, "a\r\nb\rc"}}, 1, "a\r\nb\rc"},
    {"lines: bytes are counted, not characters", {{TK_ID, "a\n\xC3\xA9\xE2\x82\xAC"}}, 1, "a\n\xC3\xA9\xE2\x82\xAC"},
    {"lines: behind 70 bytes",
     {{TK_ID, "0123456789012345678901234567890123456789012345678901234567890123456789\nx"}, {TK_END, "\n"}},
     2,
     "0123456789012345678901234567890123456789012345678901234567890123456789\nx END\n"},
    {"lines: a trigger's commands",
     {{TK_ID, "t"},
      {TK_BEGIN, "\n"},
      {TK_ID, "x"},
      {TK_SEMI, "\n"},
      {TK_ID, "y"},
      {TK_SEMI, "\n"},
      {TK_END, NULL},
      {TK_SEMI, NULL}},
     8,
     "t BEGIN\nx;\ny;\nEND;"},
};

/* A number of a stream record. */
static uint64_t number_at(const uint8_t *record, int place) {
    uint64_t number = 0;
    for (int at = place + NUMBER - 1; at >= place; at--) {
        number = number << 8 | record[at];
    }
    return number;
}

/* Whether a record says where a stream ends that has written just these bytes. */
static int ends_behind(const uint8_t *record, const uint8_t *written, uint64_t count) {
    uint64_t line = 0, column = 0;
    for (uint64_t at = 0; at < count; at++) {
        int newline = written[at] == '\n';
        line += newline;
        column = newline ? 0 : column + 1;
    }
    return number_at(record, COUNT) == count && number_at(record, LINE) == line && number_at(record, COLUMN) == column;
}

/* Appends one token, and tells whether the answer and the record fit together. */
static int append_one(uint8_t *record, uint8_t *out, size_t room, token given) {
    static const uint8_t none[1] = {0};
    const uint8_t *value = given.value ? (const uint8_t *)given.value : none;
    size_t length = given.value ? strlen(given.value) : 0;
    uint16_t flags = given.value ? given.token | VALUE_PRESENT : given.token;
    uint64_t before = number_at(record, COUNT);
    uint64_t added = kinyandoma_append(record, RECORD, out, room, flags, value, length);
    return added >> 32 == 0 && ends_behind(record, out, before + added);
}

/* A whole stream in just the room that its text has. */
static void stream(const stream_case *c) {
    lent out;
    uint8_t record[RECORD] = {1};
    size_t room = strlen(c->text);
    int done = 1;
    prepare(&out);
    for (size_t at = 0; at < c->count; at++) {
        done &= append_one(record, out.bytes + GUARD, room, c->tokens[at]);
    }
    tell(c->name, done && number_at(record, COUNT) == room && holds(&out, c->text, room));
}

/* ---- refused appends: section 3, in the order 1, 4, 2 or 12, 8 */

static uint8_t long_value[MOST + 1];

typedef struct {
    const char *name;
    uint8_t record[LONGER];
    size_t record_length;
    size_t room;
    uint16_t token;
    const uint8_t *value;
    size_t value_length;
    uint32_t number;
    uint32_t place;
} append_case;

#define ID_VALUE (TK_ID | VALUE_PRESENT)
/* A spaced record that has written something. */
#define AFTER(count, line, column) \
    { [0] = 1, [COUNT] = count, [LINE] = line, [COLUMN] = column }
#define BYTES(text) (const uint8_t *)(text), sizeof(text) - 1

static const append_case APPENDS[] = {
    {"append: a record of 9 bytes, without line and column, is 1", {1}, 9, 4, ID_VALUE, BYTES("a"), 1, 0},
    {"append: a record of a byte less is 1", {1}, RECORD - 1, 4, ID_VALUE, BYTES("a"), 1, 0},
    {"append: a record of a byte more is 1", {1}, LONGER, 4, ID_VALUE, BYTES("a"), 1, 0},
    {"append: a record of no bytes is 1", {1}, 0, 4, ID_VALUE, BYTES("a"), 1, 0},
    {"append: a record that begins with 2 is 1", {2}, RECORD, 4, ID_VALUE, BYTES("a"), 1, 0},
    {"append: a count past the output is 1", {1, 5}, RECORD, 4, ID_VALUE, BYTES("a"), 1, 0},
    {"append: a count of 2^64 - 1 is 1", {1, 255, 255, 255, 255, 255, 255, 255, 255}, RECORD, 4, ID_VALUE, BYTES("a"), 1, 0},
    {"append: a line past the count is 1", AFTER(2, 3, 0), RECORD, 4, ID_VALUE, BYTES("a"), 1, 0},
    {"append: a column past the count is 1", AFTER(2, 0, 3), RECORD, 4, ID_VALUE, BYTES("a"), 1, 0},
    {"append: a line in a fresh record is 1", AFTER(0, 1, 0), RECORD, 4, ID_VALUE, BYTES("a"), 1, 0},
    {"append: a column of 2^64 - 1 is 1",
     {[0] = 1, [COUNT] = 2, [COLUMN] = 255, 255, 255, 255, 255, 255, 255, 255},
     RECORD,
     4,
     ID_VALUE,
     BYTES("a"),
     1,
     0},
    {"append: a line past the count comes before 4", AFTER(2, 3, 0), RECORD, 4, NO_TOKEN, BYTES(""), 1, 0},
    {"append: line and column at the count are no 1 but 8", AFTER(2, 2, 2), RECORD, 4, ID_VALUE, BYTES("a\nb"), 8, 3},
    {"append: 1 comes before 4", {2}, RECORD, 4, NO_TOKEN, BYTES(""), 1, 0},
    {"append: an unknown token is 4", {1}, RECORD, 4, NO_TOKEN, BYTES(""), 4, 0},
    {"append: a value without bit 15 is 4", {1}, RECORD, 4, TK_ID, BYTES("a"), 4, 0},
    {"append: 4 comes before 2", {1}, RECORD, 4, NO_TOKEN | VALUE_PRESENT, BYTES("\xFF"), 4, 0},
    {"append: a byte FF is 2", {1}, RECORD, 4, ID_VALUE, BYTES("ab\xFF"), 2, 2},
    {"append: an overlong form is 2", {1}, RECORD, 4, ID_VALUE, BYTES("a\xC0\x80"), 2, 1},
    {"append: a surrogate is 2", {1}, RECORD, 4, ID_VALUE, BYTES("\xED\xA0\x80"), 2, 0},
    {"append: over 10FFFF is 2", {1}, RECORD, 4, ID_VALUE, BYTES("\xF4\x90\x80\x80"), 2, 0},
    {"append: F0 80 at the end is 2", {1}, RECORD, 4, ID_VALUE, BYTES("ab\xF0\x80"), 2, 2},
    {"append: a character that another breaks off is 2", {1}, RECORD, 4, ID_VALUE, BYTES("a\xE2\x82z"), 2, 1},
    {"append: a character cut off after a byte is 12", {1}, RECORD, 4, ID_VALUE, BYTES("ab\xC3"), 12, 2},
    {"append: a character cut off after two bytes is 12", {1}, RECORD, 4, ID_VALUE, BYTES("ab\xE2\x82"), 12, 2},
    {"append: a character cut off after three bytes is 12", {1}, RECORD, 4, ID_VALUE, BYTES("\xF0\x9F\x98"), 12, 0},
    {"append: 65,537 bytes are 2, place 65,536", {1}, RECORD, 4, ID_VALUE, long_value, MOST + 1, 2, MOST},
    {"append: 2 comes before 8", {1}, RECORD, 0, ID_VALUE, BYTES("a\xFF"), 2, 1},
    {"append: 4 comes before 12", {1}, RECORD, 4, NO_TOKEN | VALUE_PRESENT, BYTES("\xC3"), 4, 0},
    {"append: 12 comes before 8", {1}, RECORD, 0, ID_VALUE, BYTES("a\xC3"), 12, 1},
    {"append: no room is 8", {1}, RECORD, 2, ID_VALUE, BYTES("abc"), 8, 3},
    {"append: no room for the space is 8", {0, 1}, RECORD, 4, ID_VALUE, BYTES("abc"), 8, 4},
    {"append: a count at the end is no 1 but 8", {1, 4}, RECORD, 4, ID_VALUE, BYTES("abc"), 8, 3},
};

static void refused_append(const append_case *c) {
    lent out, record;
    prepare(&out);
    prepare(&record);
    memcpy(record.bytes + GUARD, c->record, LONGER);
    uint64_t given = kinyandoma_append(record.bytes + GUARD, c->record_length, out.bytes + GUARD, c->room, c->token,
                                       c->value, c->value_length);
    int stays = holds(&out, "", 0) && holds(&record, c->record, LONGER);
    tell(c->name, given == answer(c->number, c->place) && stays);
}

/* ---- trees */

/* Section 6: DROP TYPE IF EXISTS geo; */
#define CMD 0x53, 0x4E, 0x0A, 0, 0, 0, 1, 0, 0, 0, 0, 0, 0, 0, 0, 0
#define DROP_TYPE 0x53, 0x4E, 0x3D, 0, 1, 0, 1, 0, 0, 0, 0, 0, 0, 0, 0, 0
#define GEO 0x53, 0x4E, 0x04, 0, 0, 0, 0, 0, 0, 0, 0, 0, 3, 0, 0, 0

static const uint8_t GOOD[] = {CMD, DROP_TYPE, GEO};
static const char WRITTEN[] = "DROP TYPE IF EXISTS geo;";

/* CHECK (103) with an empty RUN, and as its source the first `length` bytes of the text. */
#define CHECK_OF(length) \
    0x53, 0x4E, 103, 0, 0, 0, 2, 0, 0, 0, 0, 0, 0, 0, 0, 0, /* two slots */ \
    0x53, 0x4E, 0x03, 0, 0, 0, 0, 0, 0, 0, 0, 0, 0, 0, 0, 0, /* RUN */ \
    0x53, 0x4E, 0x04, 0, 0, 0, 0, 0, 0, 0, 0, 0, length, 0, 0, 0 /* TEXT */

static const uint8_t CHECK[] = {CHECK_OF(4)};

#define WRONG_MARK_DROP 0x53, 0x4F, 0x3D, 0, 1, 0, 1, 0, 0, 0, 0, 0, 0, 0, 0, 0, GEO

static const uint8_t WRONG_MARK[] = {CMD, WRONG_MARK_DROP};
static const uint8_t WRONG_KIND[] = {CMD, GEO};
static const uint8_t WRONG_FLAG[] = {CMD, 0x53, 0x4E, 0x3D, 0, 2, 0, 1, 0, 0, 0, 0, 0, 0, 0, 0, 0, GEO};
static const uint8_t WRONG_COUNT[] = {CMD, 0x53, 0x4E, 0x3D, 0, 1, 0, 2, 0, 0, 0, 0, 0, 0, 0, 0, 0, GEO, GEO};
static const uint8_t UNUSED_FIELD[] = {CMD, 0x53, 0x4E, 0x3D, 0, 1, 0, 1, 0, 0, 0, 0, 0, 1, 0, 0, 0, GEO};
static const uint8_t UNKNOWN_TOKEN[] = {0x53, 0x4E, 0x03, 0, 0,        0, 1, 0, 0, 0, 0, 0, 0, 0, 0, 0,
                                        0x53, 0x4E, 0x02, 0, NO_TOKEN, 0, 0, 0, 0, 0, 0, 0, 0, 0, 0, 0};
static const uint8_t LEFT_OVER[] = {CMD, DROP_TYPE, GEO, GEO};
static uint8_t too_large[MOST + 16];
static uint8_t long_text[MOST + 1];

typedef struct {
    const char *name;
    const uint8_t *tree;
    size_t tree_length;
    const uint8_t *text;
    size_t text_length;
    uint32_t number;
    uint32_t place;
} tree_case;

static const tree_case TREES[] = {
    {"tree: empty is 1", GOOD, 0, BYTES("geo"), 1, 0},
    {"tree: 47 bytes are 1", GOOD, 47, BYTES("geo"), 1, 0},
    {"tree: 65,552 bytes are 1", too_large, MOST + 16, BYTES(""), 1, 0},
    {"tree: 1 comes before 2", GOOD, 47, BYTES("\xFF"), 1, 0},
    {"tree: 65,537 bytes of text are 2, place 65,536", GOOD, 48, long_text, MOST + 1, 2, MOST},
    {"tree: bad UTF-8 is 2", GOOD, 48, BYTES("ge\x80"), 2, 2},
    {"tree: a surrogate's beginning is 2", GOOD, 48, BYTES("ge\xED\xA0"), 2, 2},
    {"tree: a text that is cut off is 12", GOOD, 48, BYTES("ge\xC3"), 12, 2},
    {"tree: 1 comes before 12", GOOD, 47, BYTES("ge\xC3"), 1, 0},
    {"tree: a wrong mark is 3", WRONG_MARK, 48, BYTES("geo"), 3, 1},
    {"tree: a wrong mark with bad UTF-8 is 2", WRONG_MARK, 48, BYTES("ge\xFF"), 2, 2},
    {"tree: a wrong mark with a text that is cut off is 12", WRONG_MARK, 48, BYTES("ge\xE2\x82"), 12, 2},
    {"tree: a kind that may not stand here is 4", WRONG_KIND, 32, BYTES("geo"), 4, 1},
    {"tree: an undefined flag is 4", WRONG_FLAG, 48, BYTES("geo"), 4, 1},
    {"tree: a wrong child count is 4", WRONG_COUNT, 64, BYTES("geo"), 4, 1},
    {"tree: an unused field that is not zero is 4", UNUSED_FIELD, 48, BYTES("geo"), 4, 1},
    {"tree: an unknown token is 4", UNKNOWN_TOKEN, 32, BYTES(""), 4, 1},
    {"tree: a part past the text is 5", GOOD, 48, BYTES("ge"), 5, 2},
    {"tree: a part that ends inside a character is 5", GOOD, 48, BYTES("ge\xC3\xA9"), 5, 2},
    {"tree: a missing record is 7", GOOD, 32, BYTES("geo"), 7, 2},
    {"tree: a record left over is 7", LEFT_OVER, 64, BYTES("geo"), 7, 3},
};

/* Measure and render both refuse, without options and with any, and nothing is written. */
static void refused_tree(const tree_case *c) {
    static const uint32_t options[] = {0, KINYANDOMA_STRICT, KINYANDOMA_SQLITE, ~0u};
    lent out;
    prepare(&out);
    uint64_t expected = answer(c->number, c->place);
    uint64_t measured = kinyandoma_measure(c->tree, c->tree_length, c->text, c->text_length);
    uint64_t rendered =
        kinyandoma_render(c->tree, c->tree_length, c->text, c->text_length, out.bytes + GUARD, ROOM);
    int done = measured == expected && rendered == expected;
    for (size_t at = 0; at < sizeof options / sizeof options[0]; at++) {
        measured = kinyandoma_measure_with(options[at], c->tree, c->tree_length, c->text, c->text_length);
        rendered = kinyandoma_render_with(options[at], c->tree, c->tree_length, c->text, c->text_length,
                                          out.bytes + GUARD, ROOM);
        done &= measured == expected && rendered == expected;
    }
    tell(c->name, done && holds(&out, "", 0));
}

/* A text that is to be written, with these options. */
typedef struct {
    uint32_t options;
    const uint8_t *tree;
    size_t tree_length;
    const uint8_t *text;
    size_t text_length;
    const char *expected;
} written_case;

/* Measured, and rendered with just the room, with more, with one byte less and with none. */
static int is_written(const written_case *c) {
    uint32_t length = (uint32_t)strlen(c->expected);
    const size_t rooms[] = {length, ROOM, length - 1, 0};
    int done = kinyandoma_measure_with(c->options, c->tree, c->tree_length, c->text, c->text_length) == answer(0, length);
    for (size_t at = 0; at < sizeof rooms / sizeof rooms[0]; at++) {
        lent out;
        prepare(&out);
        int fits = rooms[at] >= length;
        uint64_t given = kinyandoma_render_with(c->options, c->tree, c->tree_length, c->text, c->text_length,
                                                out.bytes + GUARD, rooms[at]);
        done &= given == answer(fits ? 0 : 8, length) && holds(&out, c->expected, fits ? length : 0);
    }
    return done;
}

/* A good tree, which every option admits: by the calls without options, too. */
static void written_tree(const char *name, const uint8_t *tree, size_t tree_length, const char *text,
                         const char *expected) {
    size_t length = strlen(expected);
    const size_t rooms[] = {length, ROOM, length - 1, 0};
    const uint8_t *bytes = (const uint8_t *)text;
    const written_case without = {0, tree, tree_length, bytes, strlen(text), expected};
    const written_case with = {KINYANDOMA_STRICT, tree, tree_length, bytes, strlen(text), expected};
    const written_case sqlite = {KINYANDOMA_SQLITE, tree, tree_length, bytes, strlen(text), expected};
    int done = is_written(&without) && is_written(&with) && is_written(&sqlite);
    done &= kinyandoma_measure(tree, tree_length, bytes, strlen(text)) == answer(0, (uint32_t)length);
    for (size_t at = 0; at < sizeof rooms / sizeof rooms[0]; at++) {
        lent out;
        prepare(&out);
        int fits = rooms[at] >= length;
        uint64_t given = kinyandoma_render(tree, tree_length, bytes, strlen(text), out.bytes + GUARD, rooms[at]);
        done &= given == answer(fits ? 0 : 8, (uint32_t)length) && holds(&out, expected, fits ? length : 0);
    }
    tell(name, done);
}

/* ---- CHECK sources that are left open: document 02, request vii */

typedef struct {
    const char *name;
    const char *source;
    const char *written; /* with the switch off */
    int open;            /* whether it is refused with the switch on */
} source_case;

static const source_case SOURCES[] = {
    {"source: empty", "", "CHECK ()", 0},
    {"source: a block comment", "a/*b*/", "CHECK (a/*b*/)", 0},
    {"source: a block comment left open", "a/*b", "CHECK (a/*b)", 1},
    {"source: the two opening bytes do not end it", "/*/", "CHECK (/*/)", 1},
    {"source: the next two do", "/**/", "CHECK (/**/)", 0},
    {"source: the first end counts", "/*/**/", "CHECK (/*/**/)", 0},
    {"source: a star at the end", "/* *", "CHECK (/* *)", 1},
    {"source: a line comment", "a--b", "CHECK (a--b \n)", 0},
    {"source: a quote in a line comment", "--'", "CHECK (--' \n)", 0},
    {"source: a block comment in a line comment", "--/*", "CHECK (--/* \n)", 0},
    {"source: a newline ends a line comment", "--\n'", "CHECK (--\n' \n)", 1},
    {"source: 0D does not", "--\r'", "CHECK (--\r' \n)", 0},
    {"source: a quote in a block comment", "/*'*/", "CHECK (/*'*/)", 0},
    {"source: a line comment in a block comment", "/*--\n", "CHECK (/*--\n \n)", 1},
    {"source: '", "'a", "CHECK ('a)", 1},
    {"source: \"", "\"a", "CHECK (\"a)", 1},
    {"source: `", "`a", "CHECK (`a)", 1},
    {"source: a quote that ends", "'a'", "CHECK ('a')", 0},
    {"source: a quote that is doubled", "'a''", "CHECK ('a'')", 1},
    {"source: a doubled one in a quote that ends", "'a''b'", "CHECK ('a''b')", 0},
    {"source: another quote in a quote", "'\"'", "CHECK ('\"')", 0},
    {"source: a block comment in a quote", "'/*'", "CHECK ('/*')", 0},
    {"source: a line comment in a quote", "'--\n", "CHECK ('--\n \n)", 1},
};

/* The source of a Check, with the switch off and on, each alone, with the other option and with bits that mean nothing. */
static void source(const source_case *c) {
    static const uint32_t bits[] = {0, KINYANDOMA_SQLITE, 1u << 8, 1u << 31, ~KINYANDOMA_STRICT};
    const uint8_t tree[] = {CHECK_OF((uint8_t)strlen(c->source))};
    const uint8_t *text = (const uint8_t *)c->source;
    int done = 1;
    for (size_t at = 0; at < sizeof bits / sizeof bits[0]; at++) {
        uint32_t on = bits[at] | KINYANDOMA_STRICT;
        const written_case off = {bits[at], tree, sizeof tree, text, strlen(c->source), c->written};
        const written_case admitted = {on, tree, sizeof tree, text, strlen(c->source), c->written};
        lent out;
        prepare(&out);
        done &= is_written(&off);
        if (!c->open) {
            done &= is_written(&admitted);
            continue;
        }
        done &= kinyandoma_measure_with(on, tree, sizeof tree, text, strlen(c->source)) == answer(9, 2);
        done &= kinyandoma_render_with(on, tree, sizeof tree, text, strlen(c->source), out.bytes + GUARD, ROOM) ==
                answer(9, 2);
        done &= holds(&out, "", 0);
    }
    tell(c->name, done);
}

/* A LIST of two. */
#define LIST_OF_TWO 0x53, 0x4E, 0x01, 0, 0, 0, 2, 0, 0, 0, 0, 0, 0, 0, 0, 0
/* DROP TYPE with the first two bytes as its name. */
#define DROP_OPEN DROP_TYPE, 0x53, 0x4E, 0x04, 0, 0, 0, 0, 0, 0, 0, 0, 0, 2, 0, 0, 0

static const uint8_t TWO_CHECKS[] = {LIST_OF_TWO, CHECK_OF(1), CHECK_OF(2)};
static const uint8_t CHECK_LAST[] = {LIST_OF_TWO, DROP_OPEN, CHECK_OF(3)};
static const uint8_t CHECK_FIRST[] = {LIST_OF_TWO, CHECK_OF(2), WRONG_MARK_DROP};
static const uint8_t OTHER_TEXT[] = {DROP_OPEN};

/* Of an open source and another fault, and which text is looked at, with the switch on. */
static const tree_case STRICT[] = {
    {"strict: the first open source is the place", TWO_CHECKS, sizeof TWO_CHECKS, BYTES("a'"), 9, 6},
    {"strict: other texts are not looked at", OTHER_TEXT, sizeof OTHER_TEXT, BYTES("a'"), 0, 22},
    {"strict: 5 comes before 9 at a record", CHECK, sizeof CHECK, BYTES("'ab"), 5, 2},
    {"strict: 5 of an earlier record comes before 9", CHECK_LAST, sizeof CHECK_LAST, BYTES("'"), 5, 2},
    {"strict: 9 comes before 3 of a later record", CHECK_FIRST, sizeof CHECK_FIRST, BYTES("a'"), 9, 3},
    {"strict: 9 comes before 7", CHECK_FIRST, 4 * 16, BYTES("a'"), 9, 3},
    {"strict: 2 comes before 9", CHECK, sizeof CHECK, BYTES("'ab\xFF"), 2, 3},
    {"strict: 12 comes before 9", CHECK, sizeof CHECK, BYTES("'ab\xC3"), 12, 3},
};

static void strict_tree(const tree_case *c) {
    uint64_t measured =
        kinyandoma_measure_with(KINYANDOMA_STRICT, c->tree, c->tree_length, c->text, c->text_length);
    tell(c->name, measured == answer(c->number, c->place));
}

/* ---- The SQLite edition: document 02, request viii */

/* The body of a table (98) with its first option in the first bytes of the text, and what stands for its second. */
#define BODY_OF(length) \
    0x53, 0x4E, 0x62, 0, 0, 0, 4, 0, 0, 0, 0, 0, 0, 0, 0, 0, 0x53, 0x4E, 0x01, 0, 0, 0, 0, 0, 0, 0, 0, 0, 0, 0, 0, 0, \
        0x53, 0x4E, 0x01, 0, 0, 0, 0, 0, 0, 0, 0, 0, 0, 0, 0, 0, 0x53, 0x4E, 0x04, 0, 0, 0, 0, 0, 0, 0, 0, 0, length, 0, \
        0, 0
#define NOTHING 0x53, 0x4E, 0x00, 0, 0, 0, 0, 0, 0, 0, 0, 0, 0, 0, 0, 0
#define TEXT_OF(start, length) 0x53, 0x4E, 0x04, 0, 0, 0, 0, 0, start, 0, 0, 0, length, 0, 0, 0
/* An operator clause (116) whose text is the first bytes, with no function. */
#define OPERATOR_OF(length) \
    0x53, 0x4E, 0x74, 0, 0, 0, 2, 0, 0, 0, 0, 0, 0, 0, 0, 0, TEXT_OF(0, length), NOTHING

typedef struct {
    const char *name;
    const char *text;
    const char *written;    /* in the crate's edition */
    const char *for_sqlite; /* in the SQLite edition; none if it is refused with 10 */
} edition_case;

/* Bits beside the edition. */
static const uint32_t BESIDE[] = {0, KINYANDOMA_STRICT, 1u << 2, 1u << 31, ~KINYANDOMA_SQLITE};

/* A tree in both editions; a refusal has place 3. */
static int in_both(const edition_case *c, const uint8_t *tree, size_t length) {
    const uint8_t *text = (const uint8_t *)c->text;
    int done = 1;
    for (size_t at = 0; at < sizeof BESIDE / sizeof BESIDE[0]; at++) {
        uint32_t sqlite = BESIDE[at] | KINYANDOMA_SQLITE;
        const written_case off = {BESIDE[at], tree, length, text, strlen(c->text), c->written};
        const written_case on = {sqlite, tree, length, text, strlen(c->text), c->for_sqlite};
        lent out;
        prepare(&out);
        done &= is_written(&off);
        if (c->for_sqlite) {
            done &= is_written(&on);
            continue;
        }
        done &= kinyandoma_measure_with(sqlite, tree, length, text, strlen(c->text)) == answer(10, 3);
        done &= kinyandoma_render_with(sqlite, tree, length, text, strlen(c->text), out.bytes + GUARD, ROOM) ==
                answer(10, 3);
        done &= holds(&out, "", 0);
    }
    return done;
}

/* Without-rowid texts. */
static const edition_case ROWIDS[] = {
    {"rowid: as it is", "WITHOUT ROWID", "() WITHOUT ROWID", "() WITHOUT ROWID"},
    {"rowid: in any case, the second word as typed", "wItHoUt rOwId", "() WITHOUT rOwId", "() WITHOUT rOwId"},
    {"rowid: two spaces", "without  rowid", "() WITHOUT rowid", "() WITHOUT rowid"},
    {"rowid: any white space", "\t without\xC2\xA0rowid\xE3\x80\x80", "() WITHOUT rowid", "() WITHOUT rowid"},
    {"rowid: no white space", "WITHOUT\xE2\x80\x8BROWID", "()", NULL},
    {"rowid: empty is 10", "", "()", NULL},
    {"rowid: blank is 10", " ", "()", NULL},
    {"rowid: one part is 10", "WITHOUT", "()", NULL},
    {"rowid: three parts are 10", "WITHOUT ROWID x", "()", NULL},
    {"rowid: another first part is 10", "WITHOU ROWID", "() WITHOUT ROWID", NULL},
    {"rowid: another second part is 10", "WITHOUT ROWIDS", "() WITHOUT ROWIDS", NULL},
    {"rowid: the other order is 10", "ROWID WITHOUT", "() WITHOUT WITHOUT", NULL},
    {"rowid: a dotless i is 10", "w\xC4\xB1thout rowid", "() WITHOUT rowid", NULL},
};

/* Operator texts. */
static const edition_case OPERATORS[] = {
    {"operator: no quote", "+", "OPERATOR '+'", "OPERATOR '+'"},
    {"operator: empty", "", "OPERATOR ''", "OPERATOR ''"},
    {"operator: a quote", "'", "OPERATOR '''", "OPERATOR ''''"},
    {"operator: a quote inside", "it's", "OPERATOR 'it's'", "OPERATOR 'it''s'"},
    {"operator: two quotes", "''", "OPERATOR ''''", "OPERATOR ''''''"},
    {"operator: other quotes", "\"`", "OPERATOR '\"`'", "OPERATOR '\"`'"},
};

/* The text `without rowidstrict`, whose two parts are the options. */
static const char BOTH[] = "without rowidstrict";
static const uint8_t NO_OPTION[] = {0x53, 0x4E, 0x62, 0, 0, 0, 4, 0, 0, 0, 0, 0, 0, 0, 0, 0, 0x53, 0x4E, 0x01, 0,
                                    0,    0,    0,    0, 0, 0, 0, 0, 0, 0, 0, 0, 0x53, 0x4E, 0x01, 0, 0, 0, 0, 0,
                                    0,    0,    0,    0, 0, 0, 0, 0, NOTHING, NOTHING};
static const uint8_t BOTH_OPTIONS[] = {BODY_OF(13), TEXT_OF(13, 6)};
static const uint8_t SECOND_EMPTY[] = {BODY_OF(13), TEXT_OF(0, 0)};
static const uint8_t TWO_BODIES[] = {LIST_OF_TWO, BODY_OF(13), NOTHING, BODY_OF(7), NOTHING};
static const uint8_t CHECK_AND_BODY[] = {LIST_OF_TWO, CHECK_OF(1), BODY_OF(1), NOTHING};
static const uint8_t BODY_AND_CHECK[] = {LIST_OF_TWO, BODY_OF(1), NOTHING, CHECK_OF(1)};
static const uint8_t BODY_OF_TWO[] = {BODY_OF(2), NOTHING};
static const uint8_t BODY_BEFORE_MARK[] = {LIST_OF_TWO, BODY_OF(2), NOTHING, WRONG_MARK_DROP};

/* Which refusal comes first, with both bits set. */
static const tree_case BOTH_BITS[] = {
    {"edition: the first such text is the place", TWO_BODIES, sizeof TWO_BODIES, BYTES(BOTH), 10, 9},
    {"edition: 9 of an earlier record comes before 10", CHECK_AND_BODY, sizeof CHECK_AND_BODY, BYTES("'"), 9, 3},
    {"edition: 10 of an earlier record comes before 9", BODY_AND_CHECK, sizeof BODY_AND_CHECK, BYTES("'"), 10, 4},
    {"edition: 5 comes before 10 at a record", BODY_OF_TWO, sizeof BODY_OF_TWO, BYTES("a"), 5, 3},
    {"edition: 10 comes before 3 of a later record", BODY_BEFORE_MARK, sizeof BODY_BEFORE_MARK, BYTES("aa"), 10, 4},
    {"edition: 10 comes before 7", BODY_BEFORE_MARK, 5 * 16, BYTES("aa"), 10, 4},
    {"edition: 2 comes before 10", BODY_OF_TWO, sizeof BODY_OF_TWO, BYTES("aa\xFF"), 2, 2},
    {"edition: 12 comes before 10", BODY_OF_TWO, sizeof BODY_OF_TWO, BYTES("aa\xC3"), 12, 2},
};

static void editions(void) {
    static const edition_case none = {"options: none", "", "()", "()"};
    static const edition_case both = {"options: a comma between both", BOTH, "() WITHOUT rowid strict",
                                      "() WITHOUT rowid, strict"};
    static const edition_case empty = {"options: a comma before an empty one", BOTH, "() WITHOUT rowid ",
                                       "() WITHOUT rowid, "};
    for (size_t at = 0; at < sizeof ROWIDS / sizeof ROWIDS[0]; at++) {
        const uint8_t tree[] = {BODY_OF((uint8_t)strlen(ROWIDS[at].text)), NOTHING};
        tell(ROWIDS[at].name, in_both(&ROWIDS[at], tree, sizeof tree));
    }
    for (size_t at = 0; at < sizeof OPERATORS / sizeof OPERATORS[0]; at++) {
        const uint8_t tree[] = {OPERATOR_OF((uint8_t)strlen(OPERATORS[at].text))};
        tell(OPERATORS[at].name, in_both(&OPERATORS[at], tree, sizeof tree));
    }
    tell(none.name, in_both(&none, NO_OPTION, sizeof NO_OPTION));
    tell(both.name, in_both(&both, BOTH_OPTIONS, sizeof BOTH_OPTIONS));
    tell(empty.name, in_both(&empty, SECOND_EMPTY, sizeof SECOND_EMPTY));
    for (size_t at = 0; at < sizeof BOTH_BITS / sizeof BOTH_BITS[0]; at++) {
        const tree_case *c = &BOTH_BITS[at];
        uint32_t options = KINYANDOMA_STRICT | KINYANDOMA_SQLITE;
        uint64_t measured = kinyandoma_measure_with(options, c->tree, c->tree_length, c->text, c->text_length);
        tell(c->name, measured == answer(c->number, c->place));
    }
}

/* ---- Many trees at once: document 02, request i */

/* RUN of one TK_ID, whose value is the first `length` bytes of the text. */
#define NAME_OF(length) \
    0x53, 0x4E, 0x03, 0, 0, 0, 1, 0, 0, 0, 0, 0, 0, 0, 0, 0, /* RUN */ \
    0x53, 0x4E, 0x02, 0, TK_ID, 0x80, 0, 0, 0, 0, 0, 0, length, 0, 0, 0 /* TOKEN */

/* DROP TYPE at 0, a name of a byte at 48, one of three bytes at 80, an empty RUN at 112, and a CHECK at 128. */
static const uint8_t BUFFER[] = {CMD, DROP_TYPE, GEO, NAME_OF(1), NAME_OF(3),
                                 0x53, 0x4E, 0x03, 0, 0, 0, 0, 0, 0, 0, 0, 0, 0, 0, 0, 0, CHECK_OF(1)};

enum {
    JOBS = 6,              /* most jobs of a case */
    BUFFER_LEN = 176,      /* bytes of the buffer */
    UNSET = 0x5555         /* what stands in a job before the call */
};

/* The last numbers of 64 bits: so many before 2^64. */
#define LAST(before) (UINT64_MAX - (before) + 1)
#define DROP_JOB 0, 48
#define SHORT_JOB 48, 32
#define NAME_JOB 80, 32
#define EMPTY_JOB 112, 16
#define CHECK_JOB 128, 48

typedef struct {
    const char *name;
    uint32_t options;
    const uint8_t *text;
    size_t text_length;
    size_t room;
    size_t count;
    struct kinyandoma_job jobs[JOBS]; /* with what is expected in them */
    const char *written;
} jobs_case;

static const jobs_case LISTS[] = {
    {"jobs: none", 0, BYTES("geo"), 8, 0, {{DROP_JOB, 0, 0, 0}}, ""},
    {"jobs: none, with a text that is not UTF-8", 0, BYTES("\xFF"), 8, 0, {{DROP_JOB, 0, 0, 0}}, ""},
    {"jobs: one", 0, BYTES("geo"), ROOM, 1, {{DROP_JOB, 0, 24, 0}}, "DROP TYPE IF EXISTS geo;"},
    {"jobs: one behind the other, in just the room", 0, BYTES("geo"), 28, 4,
     {{DROP_JOB, 0, 24, 0}, {SHORT_JOB, 0, 1, 24}, {EMPTY_JOB, 0, 0, 25}, {NAME_JOB, 0, 3, 25}},
     "DROP TYPE IF EXISTS geo;ggeo"},
    {"jobs: the same twice, and one inside another", 0, BYTES("geo"), ROOM, 3,
     {{SHORT_JOB, 0, 1, 0}, {SHORT_JOB, 0, 1, 1}, {16, 32, 0, 23, 2}},
     "ggDROP TYPE IF EXISTS geo"},
    {"jobs: no room is 8, and a shorter one goes on", 0, BYTES("geo"), 4, 4,
     {{DROP_JOB, 8, 24, 0}, {NAME_JOB, 0, 3, 0}, {NAME_JOB, 8, 3, 3}, {SHORT_JOB, 0, 1, 3}},
     "geog"},
    {"jobs: no room at all", 0, BYTES("geo"), 0, 3,
     {{SHORT_JOB, 8, 1, 0}, {EMPTY_JOB, 0, 0, 0}, {NAME_JOB, 8, 3, 0}}, ""},
    {"jobs: a refused one adds nothing", 0, BYTES("geo"), ROOM, 4,
     {{SHORT_JOB, 0, 1, 0}, {0, 32, 7, 2, 1}, {48, 48, 7, 2, 1}, {NAME_JOB, 0, 3, 1}}, "ggeo"},
    {"jobs: a tree of no bytes and of a byte less are 1", 0, BYTES("geo"), ROOM, 3,
     {{48, 0, 1, 0, 0}, {48, 31, 1, 0, 0}, {SHORT_JOB, 0, 1, 0}}, "g"},
    {"jobs: at the end of the buffer, and past it", 0, BYTES("geo"), ROOM, 6,
     {{BUFFER_LEN, 0, 1, 0, 0}, {BUFFER_LEN, 16, 1, 0, 0}, {BUFFER_LEN + 1, 0, 1, 0, 0},
      {BUFFER_LEN - 16, 32, 1, 0, 0}, {0, BUFFER_LEN + 16, 1, 0, 0}, {SHORT_JOB, 0, 1, 0}}, "g"},
    {"jobs: sums of 2^64", 0, BYTES("geo"), ROOM, 6,
     {{LAST(16), 16, 1, 0, 0}, {LAST(16), 64, 1, 0, 0}, {48, LAST(48), 1, 0, 0},
      {48, LAST(16), 1, 0, 0}, {UINT64_MAX, UINT64_MAX, 1, 0, 0}, {SHORT_JOB, 0, 1, 0}}, "g"},
    {"jobs: numbers whose low halves are inside", 0, BYTES("geo"), ROOM, 3,
     {{(uint64_t)1 << 32 | 48, 32, 1, 0, 0}, {48, (uint64_t)1 << 32 | 32, 1, 0, 0}, {SHORT_JOB, 0, 1, 0}}, "g"},
    {"jobs: outside comes before a text that is not UTF-8", 0, BYTES("ge\xFF"), ROOM, 4,
     {{NAME_JOB, 2, 2, 0}, {BUFFER_LEN, 16, 1, 0, 0}, {0, 47, 1, 0, 0}, {SHORT_JOB, 2, 2, 0}}, ""},
    {"jobs: outside comes before a text that is cut off", 0, BYTES("geo\xE2\x82"), ROOM, 3,
     {{UINT64_MAX, 1, 1, 0, 0}, {NAME_JOB, 12, 3, 0}, {EMPTY_JOB, 12, 3, 0}}, ""},
    {"jobs: a text that is too long is 2 for each", 0, long_text, MOST + 1, ROOM, 2,
     {{SHORT_JOB, 2, MOST, 0}, {EMPTY_JOB, 2, MOST, 0}}, ""},
    {"jobs: an open source is written", KINYANDOMA_SQLITE, BYTES("'eo"), ROOM, 2,
     {{CHECK_JOB, 0, 9, 0}, {SHORT_JOB, 0, 1, 9}}, "CHECK (')'"},
    {"jobs: with the switch on it is 9", KINYANDOMA_STRICT, BYTES("'eo"), ROOM, 2,
     {{CHECK_JOB, 9, 2, 0}, {SHORT_JOB, 0, 1, 0}}, "'"},
};

/* Whether each job says what is expected, and those behind the last are as before. */
static int jobs_as_expected(const jobs_case *c, const struct kinyandoma_job *jobs) {
    int done = 1;
    for (size_t at = 0; at < JOBS; at++) {
        const struct kinyandoma_job *expected = &c->jobs[at], *given = &jobs[at];
        int called = at < c->count;
        done &= given->tree_start == expected->tree_start && given->tree_len == expected->tree_len;
        done &= given->refusal == (called ? expected->refusal : UNSET);
        done &= given->place == (called ? expected->place : UNSET);
        done &= given->out_start == (called ? expected->out_start : UNSET);
    }
    return done;
}

static void list_of_jobs(const jobs_case *c) {
    struct kinyandoma_job jobs[JOBS];
    uint8_t trees[BUFFER_LEN];
    lent out;
    size_t length = strlen(c->written);
    prepare(&out);
    memcpy(trees, BUFFER, sizeof trees);
    for (size_t at = 0; at < JOBS; at++) {
        struct kinyandoma_job before = {c->jobs[at].tree_start, c->jobs[at].tree_len, UNSET, UNSET, UNSET};
        jobs[at] = before;
    }
    uint64_t written = kinyandoma_render_jobs(c->options, jobs, c->count, trees, sizeof trees, c->text, c->text_length,
                                              out.bytes + GUARD, c->room);
    int stays = memcmp(trees, BUFFER, sizeof trees) == 0 && holds(&out, c->written, length);
    tell(c->name, written == length && stays && jobs_as_expected(c, jobs));
}

/* One record with no part, flags or number. */
static void put(uint8_t *tree, size_t index, uint8_t kind, uint8_t children) {
    uint8_t *record = tree + 16 * index;
    memset(record, 0, 16);
    record[0] = 0x53;
    record[1] = 0x4E;
    record[2] = kind;
    record[6] = children;
}

/* Section 6: "Depth 64 passes, 65 gives 6." FROM clauses (85) in brackets (90), `pairs` of them above a RUN, each with an
 * empty LIST or a NONE behind; with `outer` one bracket more above all. Answers the number of records. */
static size_t nested(uint8_t *tree, size_t pairs, int outer) {
    enum { NONE = 0, LIST = 1, RUN = 3, FROM_CLAUSE = 85, SUB = 90 };
    size_t next = 0;
    if (outer) {
        put(tree, next++, SUB, 2);
    }
    for (size_t at = 0; at < pairs; at++) {
        put(tree, next++, FROM_CLAUSE, 2);
        put(tree, next++, SUB, 2);
    }
    put(tree, next++, RUN, 0);
    for (size_t at = 0; at < pairs; at++) {
        put(tree, next++, NONE, 0);
        put(tree, next++, LIST, 0);
    }
    if (outer) {
        put(tree, next++, NONE, 0);
    }
    return next;
}

static void depths(void) {
    enum { PAIRS = 32, RECORDS = 4 * PAIRS + 3 };
    static uint8_t tree[16 * RECORDS];
    const uint8_t *text = (const uint8_t *)"";
    size_t records = nested(tree, PAIRS - 1, 1);
    uint64_t measured = kinyandoma_measure(tree, 16 * records, text, 0);
    tell("tree: depth 64 passes", measured >> 32 == 0);
    records = nested(tree, PAIRS, 0);
    measured = kinyandoma_measure(tree, 16 * records, text, 0);
    tell("tree: depth 65 is 6", measured == answer(6, 2 * PAIRS));
}

/* ---- the field profile: request xi */

#define NODE(kind, flags, children) 0x53, 0x4E, kind, 0, flags, 0, children, 0, 0, 0, 0, 0, 0, 0, 0, 0
#define EMPTY_RUN NODE(3, 0, 0)
#define EMPTY_LIST NODE(1, 0, 0)
/* CREATE TABLE with one column, without a name; its body has the two LISTs and no options. */
#define TABLE_OF(column) \
    NODE(38, 0, 2), EMPTY_RUN, NODE(98, 0, 4), NODE(1, 0, 1), column, EMPTY_LIST, NOTHING, NOTHING
#define COLUMN NODE(100, 0, 3), EMPTY_RUN, NOTHING, EMPTY_LIST

typedef struct {
    const char *name;
    uint8_t tree[16 * 12];
    size_t records;
    const char *text;
    uint32_t number; /* of 0 the place is what measure says */
    uint32_t place;
} profile_case;

static const profile_case PROFILES[] = {
    {"profile: DROP TABLE", {NODE(46, 0, 1), EMPTY_RUN}, 2, "", 0, 0},
    {"profile: DROP INDEX in a Cmd", {CMD, NODE(45, 0, 1), EMPTY_RUN}, 3, "", 0, 0},
    {"profile: ALTER TABLE", {NODE(32, 0, 2), EMPTY_RUN, NODE(93, 0, 1), EMPTY_RUN}, 4, "", 0, 0},
    {"profile: CREATE INDEX",
     {NODE(37, 0, 6), EMPTY_RUN, EMPTY_RUN, NOTHING, EMPTY_LIST, EMPTY_LIST, NOTHING},
     7,
     "",
     0,
     0},
    {"profile: CREATE TABLE", {TABLE_OF(COLUMN)}, 11, "", 0, 0},
    {"profile: a RUN for a column is 11", {TABLE_OF(EMPTY_RUN)}, 8, "", 11, 4},
    {"profile: DROP VIEW is 11", {NODE(48, 0, 1), EMPTY_RUN}, 2, "", 11, 0},
    {"profile: DROP VIEW in a Cmd is 11", {CMD, NODE(48, 0, 1), EMPTY_RUN}, 3, "", 11, 1},
    {"profile: a RUN in a Cmd is 11", {CMD, EMPTY_RUN}, 2, "", 11, 1},
    {"profile: a Cmd with flags is 11", {NODE(10, 1, 1), NODE(46, 0, 1), EMPTY_RUN}, 3, "", 11, 0},
    {"profile: a LIST is 11", {NODE(1, 0, 1), NODE(46, 0, 1), EMPTY_RUN}, 3, "", 11, 0},
    {"profile: a RUN is 11", {EMPTY_RUN}, 1, "", 11, 0},
    {"profile: no tree is 1", {0}, 0, "", 1, 0},
    {"profile: 12 comes before 11", {EMPTY_RUN}, 1, "\xC3", 12, 0},
    {"profile: 4 comes before 11", {NODE(48, 2, 1), EMPTY_RUN}, 2, "", 4, 0},
    {"profile: 7 comes before 11", {NODE(48, 0, 1)}, 1, "", 7, 1},
};

/* With all options and with none: they mean nothing to these trees. */
static void profiled(const profile_case *c) {
    static const uint32_t options[] = {0, KINYANDOMA_STRICT, KINYANDOMA_SQLITE, UINT32_MAX};
    const uint8_t *text = (const uint8_t *)c->text;
    size_t text_length = strlen(c->text), length = 16 * c->records;
    int done = 1;
    for (size_t at = 0; at < sizeof options / sizeof options[0]; at++) {
        uint64_t measured = kinyandoma_measure_with(options[at], c->tree, length, text, text_length);
        uint64_t expected = c->number == 0 ? measured : answer(c->number, c->place);
        uint64_t given = kinyandoma_profile(options[at], c->tree, length, text, text_length);
        done &= given == expected && given >> 32 == c->number && (measured >> 32 == 0 || measured == given);
    }
    tell(c->name, done);
}

/* An open CHECK is 9 where that is asked for, and breaks the profile else: it is no statement. */
static void profile_of_source(void) {
    static const uint8_t tree[] = {CHECK_OF(2)};
    const uint8_t *text = (const uint8_t *)"/*";
    int done = kinyandoma_profile(0, tree, sizeof tree, text, 2) == answer(11, 0);
    done &= kinyandoma_profile(KINYANDOMA_STRICT, tree, sizeof tree, text, 2) == answer(9, 2);
    tell("profile: 9 comes before 11", done);
}

/* CREATE TABLE AS SELECT with a table in `brackets`, below a Cmd or not. Answers the number of records. */
static size_t nested_table(uint8_t *tree, size_t brackets, int in_cmd) {
    enum { NONE = 0, LIST = 1, RUN = 3, FROM_CLAUSE = 85, TABLE = 87, SUB = 90 };
    static const uint8_t before[] = {NODE(38, 0, 2), EMPTY_RUN, NODE(99, 0, 1), NODE(80, 0, 4), NOTHING,
                                     NODE(81, 0, 2), NODE(83, 0, 6), NOTHING, EMPTY_LIST};
    static const uint8_t behind[] = {NOTHING, NOTHING, EMPTY_LIST, EMPTY_LIST, NOTHING, NOTHING};
    size_t next = 0;
    if (in_cmd) {
        put(tree, next++, 10, 1);
    }
    memcpy(tree + 16 * next, before, sizeof before);
    next += sizeof before / 16;
    for (size_t at = 0; at < brackets; at++) {
        put(tree, next++, FROM_CLAUSE, 2);
        put(tree, next++, SUB, 2);
    }
    put(tree, next++, FROM_CLAUSE, 2);
    put(tree, next++, TABLE, 3);
    put(tree, next++, RUN, 0);
    put(tree, next++, NONE, 0);
    put(tree, next++, NONE, 0);
    put(tree, next++, LIST, 0);
    for (size_t at = 0; at < brackets; at++) {
        put(tree, next++, NONE, 0);
        put(tree, next++, LIST, 0);
    }
    memcpy(tree + 16 * next, behind, sizeof behind);
    return next + sizeof behind / 16;
}

/* With eight brackets the table's name is 24 deep; a Cmd is counted. */
static void profile_depths(void) {
    enum { BRACKETS = 8, NAME = 9 + 2 * BRACKETS + 2, RECORDS = 64 };
    static uint8_t tree[16 * RECORDS];
    const uint8_t *text = (const uint8_t *)"";
    size_t length = 16 * nested_table(tree, BRACKETS, 0);
    uint64_t given = kinyandoma_profile(0, tree, length, text, 0);
    tell("profile: depth 24 passes", given >> 32 == 0 && given == kinyandoma_measure(tree, length, text, 0));
    length = 16 * nested_table(tree, BRACKETS, 1);
    tell("profile: depth 25 is 11", kinyandoma_profile(0, tree, length, text, 0) == answer(11, 1 + NAME));
}

/* ---- The reader: document 02, request iii */

enum { LEXEMES = 12 }; /* most lexemes of a case, with the end or the failure */

typedef struct {
    uint32_t kind;
    size_t start, rest;
} lexeme;

typedef struct {
    const char *name;
    const char *text;
    size_t length;
    lexeme cut[LEXEMES]; /* the last one is the end or the failure */
} reader_case;

#define OF(literal) literal, sizeof literal - 1
#define END_AT(at) {KINYANDOMA_END, at, at}
#define STOP_AT(at) {KINYANDOMA_STOP, at, at}

static const reader_case READERS[] = {
    {"lexemes: none in an empty text", OF(""), {END_AT(0)}},
    {"lexemes: none in blanks", OF(" \n "), {END_AT(3)}},
    {"lexemes: a, 1",
     OF("a, 1"),
     {{KINYANDOMA_WORD, 0, 1}, {KINYANDOMA_MARK, 1, 2}, {KINYANDOMA_NUMBER, 3, 4}, END_AT(4)}},
    {"lexemes: blanks at the end", OF(" a\n "), {{KINYANDOMA_WORD, 1, 2}, END_AT(4)}},
    {"lexemes: each kind",
     OF("ab 1.5 'c' X'0a' ?1 ->> ;"),
     {{KINYANDOMA_WORD, 0, 2},
      {KINYANDOMA_NUMBER, 3, 6},
      {KINYANDOMA_QUOTED, 7, 10},
      {KINYANDOMA_BLOB, 11, 16},
      {KINYANDOMA_VARIABLE, 17, 19},
      {KINYANDOMA_OPERATOR, 20, 23},
      {KINYANDOMA_MARK, 24, 25},
      END_AT(25)}},
    {"lexemes: words", OF("_a$1\xC3\xA9 \xFF"), {{KINYANDOMA_WORD, 0, 6}, {KINYANDOMA_WORD, 7, 8}, END_AT(8)}},
    {"lexemes: a dot beside digits",
     OF("1.2.3."),
     {{KINYANDOMA_NUMBER, 0, 3},
      {KINYANDOMA_MARK, 3, 4},
      {KINYANDOMA_NUMBER, 4, 5},
      {KINYANDOMA_MARK, 5, 6},
      END_AT(6)}},
    {"lexemes: quotes doubled",
     OF("'a''b'\"`\"`\n`"),
     {{KINYANDOMA_QUOTED, 0, 6}, {KINYANDOMA_QUOTED, 6, 9}, {KINYANDOMA_QUOTED, 9, 12}, END_AT(12)}},
    {"lexemes: blobs are not doubled",
     OF("x'z''b'X"),
     {{KINYANDOMA_BLOB, 0, 4}, {KINYANDOMA_QUOTED, 4, 7}, {KINYANDOMA_WORD, 7, 8}, END_AT(8)}},
    {"lexemes: variables",
     OF("?x:@a$"),
     {{KINYANDOMA_VARIABLE, 0, 2}, {KINYANDOMA_VARIABLE, 2, 3}, {KINYANDOMA_VARIABLE, 3, 6}, END_AT(6)}},
    {"lexemes: operators",
     OF("a--<>b"),
     {{KINYANDOMA_WORD, 0, 1}, {KINYANDOMA_OPERATOR, 1, 5}, {KINYANDOMA_WORD, 5, 6}, END_AT(6)}},
    {"lexemes: a tab is a failure", OF("a \tb"), {{KINYANDOMA_WORD, 0, 1}, STOP_AT(2)}},
    {"lexemes: so is a zero", OF("\0"), {STOP_AT(0)}},
    {"lexemes: so is a quote that is not closed",
     OF("a, 'b''"),
     {{KINYANDOMA_WORD, 0, 1}, {KINYANDOMA_MARK, 1, 2}, STOP_AT(3)}},
    {"lexemes: so is a blob that is not closed", OF(" x'0a"), {STOP_AT(1)}},
};

/* One call on the rest of a text from a place on, with known words around the two; the places are those of the text. */
static lexeme lexeme_from(const reader_case *c, size_t from) {
    enum { KNOWN = 0xEEEE };
    size_t words[] = {KNOWN, KNOWN, KNOWN, KNOWN, KNOWN}, *start = &words[1], *rest = &words[3];
    lexeme found = {KINYANDOMA_STOP + 1, 0, 0};
    found.kind = kinyandoma_lexeme((const uint8_t *)c->text + from, c->length - from, start, rest);
    if (words[0] == KNOWN && words[2] == KNOWN && words[4] == KNOWN) {
        found.start = from + *start;
        found.rest = from + *rest;
    }
    return found;
}

static int same_lexeme(lexeme found, const lexeme *due) {
    return found.kind == due->kind && found.start == due->start && found.rest == due->rest;
}

/* A text from end to end; the end and the failure are found again where they are. */
static void cut(const reader_case *c) {
    const lexeme *due = c->cut;
    size_t from = 0;
    while (same_lexeme(lexeme_from(c, from), due) && due->kind != KINYANDOMA_END && due->kind != KINYANDOMA_STOP) {
        from = due->rest;
        due++;
    }
    int is_last = due->kind == KINYANDOMA_END || due->kind == KINYANDOMA_STOP;
    tell(c->name, is_last && same_lexeme(lexeme_from(c, from), due) && same_lexeme(lexeme_from(c, due->rest), due));
}

/* A text of any length is cut: one word that is longer than a text of a tree may be. */
static void long_lexeme(void) {
    size_t start = 1, rest = 0;
    uint32_t kind = kinyandoma_lexeme(long_value, sizeof long_value, &start, &rest);
    tell("lexemes: a long word", kind == KINYANDOMA_WORD && start == 0 && rest == sizeof long_value);
}

int main(void) {
    memset(long_value, 'x', sizeof long_value);
    memset(long_text, 0xFF, sizeof long_text);
    for (size_t at = 0; at < sizeof STREAMS / sizeof STREAMS[0]; at++) {
        stream(&STREAMS[at]);
    }
    for (size_t at = 0; at < sizeof APPENDS / sizeof APPENDS[0]; at++) {
        refused_append(&APPENDS[at]);
    }
    written_tree("tree: DROP TYPE IF EXISTS geo;, 24 bytes; room 23 is 8, place 24", GOOD, sizeof GOOD, "geo", WRITTEN);
    written_tree("tree: a CHECK source with --", CHECK, sizeof CHECK, "a--b", "CHECK (a--b \n)");
    for (size_t at = 0; at < sizeof TREES / sizeof TREES[0]; at++) {
        refused_tree(&TREES[at]);
    }
    depths();
    for (size_t at = 0; at < sizeof SOURCES / sizeof SOURCES[0]; at++) {
        source(&SOURCES[at]);
    }
    for (size_t at = 0; at < sizeof STRICT / sizeof STRICT[0]; at++) {
        strict_tree(&STRICT[at]);
    }
    editions();
    for (size_t at = 0; at < sizeof LISTS / sizeof LISTS[0]; at++) {
        list_of_jobs(&LISTS[at]);
    }
    for (size_t at = 0; at < sizeof PROFILES / sizeof PROFILES[0]; at++) {
        profiled(&PROFILES[at]);
    }
    profile_of_source();
    profile_depths();
    for (size_t at = 0; at < sizeof READERS / sizeof READERS[0]; at++) {
        cut(&READERS[at]);
    }
    long_lexeme();
    printf("%d passed, %d failed\n", passed, failed);
    return failed != 0;
}
