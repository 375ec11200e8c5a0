/* Kinyandoma: schema text, to the byte. The calls of libkinyandoma.a (rt staticlib kinyandoma), for x86-64 Linux.
 *
 * Lending. Bytes are lent as a pointer and a length, in the order of the arguments; jobs as a pointer and their number. A
 * call reads and writes only what is lent to it, keeps nothing afterwards, and allocates nothing. Each pointer is valid for
 * its length and not null, also where the length is 0; no length is over 2^63 - 1 bytes; and what a call may write (`out`,
 * `rec`, `jobs`, `start`, `rest`) overlaps nothing else that is lent to the same call. Nothing else is asked of a caller:
 * any bytes, and any length, are answered.
 *
 * Answers. A call answers number * 2^32 + place: answer >> 32 is the number, answer & 0xffffffff the place. Two calls answer
 * otherwise: kinyandoma_render_jobs, which writes number and place into each job, and kinyandoma_lexeme, which refuses
 * nothing.
 *
 *   number  when                                                                        place
 *   0       done                                                                        length of the text;
 *                                                                                       append: bytes added
 *   1       the tree is empty, over 65536 bytes, or not a multiple of 16;               0
 *           jobs: the job is not inside the tree buffer, too;
 *           append: the record is malformed, its count past the end of out, or
 *           its line or its column larger than its count
 *   2       the text or value is over 65536 bytes (place 65536; tested first),          first byte that begins no
 *           or not UTF-8 and not cut off (12)                                           valid character
 *   3       wrong mark                                                                  record
 *   4       kind not allowed here, wrong child count, undefined flag, unused field      record; append: 0
 *           not zero, unknown token, number out of range
 *   5       text part not inside the text, or an end inside a character                 record
 *   6       record deeper than 64                                                       record
 *   7       a needed record is past the end, or records remain after the root           first missing or
 *                                                                                       left-over index
 *   8       out is shorter than needed                                                  length needed;
 *                                                                                       append: bytes this token adds
 *   9       with KINYANDOMA_STRICT: the source of a CHECK ends inside a block           record of the source
 *           comment or inside a quote
 *   10      with KINYANDOMA_SQLITE: a without-rowid text is not WITHOUT and ROWID      record of the text
 *   11      profile: the tree breaks the field profile                                  first record that breaks it
 *   12      the text or value is cut off: it ends in the middle of a character          first byte of that character
 *
 * The first that fits is answered. For a tree: 1, 2 or 12, then the records by index, and at each 3, 4, 5, 9, 10, 6; then
 * 7; then 8, or for the profile 11. For a job the same. For append: 1, 4, 2 or 12, 8. A place never exceeds 32 bits.
 *
 * Of a text that is not UTF-8, 12 says that more bytes could have made it UTF-8 and 2 that none could: the bytes from
 * the place to the end are the beginning of some character, or they are not. E2 82 at the end is 12; F0 80, ED A0 and C0
 * are 2, and so is what is broken before the end.
 */
#ifndef KINYANDOMA_H
#define KINYANDOMA_H

#include <stddef.h>
#include <stdint.h>

#ifdef __cplusplus
extern "C" {
#endif

/* How long the text of a tree is. `tree` is a row of 16-byte records, `text` the UTF-8 text that they name parts of.
 * Writes nothing. */
uint64_t kinyandoma_measure(const uint8_t *tree, size_t tree_len, const uint8_t *text, size_t text_len);

/* The text of a tree, written to out from its first byte on. On 0 exactly as many bytes are written as the place says,
 * and those behind them are as they were; room for exactly the length is enough. On a refusal out is as it was. */
uint64_t kinyandoma_render(const uint8_t *tree, size_t tree_len, const uint8_t *text, size_t text_len, uint8_t *out,
                           size_t out_len);

/* Options of kinyandoma_measure_with, kinyandoma_render_with, kinyandoma_profile and kinyandoma_render_jobs: flags, joined
 * with `|`. Other bits are ignored. With 0 the first two answer and write as kinyandoma_measure and kinyandoma_render do. */

/* Refuse, with 9, a CHECK whose source would swallow the bracket behind it: a TEXT in a Check (103) that ends inside a block
 * comment or inside a quote. One that ends inside a line comment is written, since a newline is written behind it. A source
 * is read from its first byte. Outside quotes and comments, slash and star begin a block comment, two hyphens a line
 * comment, and each of ' " ` a quote. A block comment ends at the first star and slash behind the two bytes that began it, a
 * line comment at a newline (0A), a quote at the next one like it. */
#define KINYANDOMA_STRICT 1u

/* Write the SQLite edition, for tools that are SQLite, instead of the crate's edition. It differs in three things. A comma
 * stands between the two options of a table (98) where both are TEXTs. Each ' inside the text of an operator clause (116) is
 * doubled. A without-rowid text of a table is refused, with 10, unless it has just two parts, WITHOUT and ROWID, each letter
 * in either case; parts are what stands between white space, as in the crate's edition. */
#define KINYANDOMA_SQLITE 2u

/* As kinyandoma_measure, with options. */
uint64_t kinyandoma_measure_with(uint32_t options, const uint8_t *tree, size_t tree_len, const uint8_t *text,
                                 size_t text_len);

/* As kinyandoma_render, with options. */
uint64_t kinyandoma_render_with(uint32_t options, const uint8_t *tree, size_t tree_len, const uint8_t *text,
                                size_t text_len, uint8_t *out, size_t out_len);

/* How long the text of a tree is, as kinyandoma_measure_with tells it, if the tree is of the field profile: what a unit under
 * the small contract may receive. The tree is a CreateTable (38), CreateIndex (37), DropTable (46), DropIndex (45) or
 * AlterTable (32), alone or in a Cmd (10) with flags 0; no RUN stands where a kind from 32 up may stand; and no record is
 * deeper than 24, where the root, also a Cmd, is 1 deep. What the other calls refuse is refused as they do, and only then is
 * the first record that breaks the profile told, with 11. Writes nothing. What is admitted here, the other calls admit, too,
 * with the same text and options, and they write the same bytes for it as for any other tree. */
uint64_t kinyandoma_profile(uint32_t options, const uint8_t *tree, size_t tree_len, const uint8_t *text, size_t text_len);

/* One tree among many, and what became of it. The caller sets the first two, which may be any numbers; the call leaves them
 * as they are, and writes the other three, whatever stood there. */
struct kinyandoma_job {
    uint64_t tree_start; /* where the tree begins in the tree buffer */
    uint64_t tree_len;   /* how many bytes it has */
    uint64_t refusal;    /* 0, or the number of the refusal */
    uint64_t place;      /* of 0 the length of the text; of a refusal its place */
    uint64_t out_start;  /* where in out the text begins; of a refused job, where the next text begins */
};

/* The texts of many trees, written to out one behind the other from its first byte on. `trees` is one buffer for all trees,
 * which may be longer than a tree may be, and `text` the one text that they name parts of; its encoding is checked once.
 * Jobs may name the same bytes, or bytes that overlap.
 *
 * Each job in order is what kinyandoma_render_with does with the job's tree, the text, and the room that is left of out
 * behind the texts before. A job is refused with 1 and place 0, before all else, if it begins past the end of the buffer or
 * fewer bytes stand behind its start than it says. A refused job adds nothing, and the next ones go on: after one that there
 * was no room for (8), a shorter one may be written.
 *
 * Answers the bytes that were written in all; those behind them are as they were. Without jobs it answers 0. */
uint64_t kinyandoma_render_jobs(uint32_t options, struct kinyandoma_job *jobs, size_t count, const uint8_t *trees,
                                size_t trees_len, const uint8_t *text, size_t text_len, uint8_t *out, size_t out_len);

/* The bytes of a stream record. All numbers in it are little-endian.
 *
 *   byte    what
 *   0       1 if the next token is written without a space before it, else 0; any other byte is malformed
 *   1-8     count: the bytes written so far, at most the length of out
 *   9-16    line: the newlines (0A) among them, so the line of the next byte, from 0; at most the count
 *   17-24   column: the bytes behind the last newline, or all if there is none, so the column of the next byte, from 0;
 *           at most the count
 *
 * A fresh record, of a stream that has written nothing, is 01 and 24 zeros. A record of any other length is malformed. */
#define KINYANDOMA_RECORD 25

/* One token, appended behind what a stream has written. `rec` is the stream record. `token` is the token's number (bits
 * 0-14), with bit 15 set where a value is present; `value` is that value, and its length is 0 where none is. On 0 the
 * token's bytes are written to out from the count on, nothing beyond them is changed, and the record is that of the longer
 * stream: line and column are right whatever the value has in it. On a refusal out and rec are as they were. A script
 * may be split between calls before any token: hand the next call rec and out as the last one left them. */
uint64_t kinyandoma_append(uint8_t *rec, size_t rec_len, uint8_t *out, size_t out_len, uint16_t token,
                           const uint8_t *value, size_t value_len);

/* What kinyandoma_lexeme finds. */
#define KINYANDOMA_END 0u      /* nothing but blanks */
#define KINYANDOMA_WORD 1u     /* a letter, _ or a byte from 80 (hex), then those, digits and $ */
#define KINYANDOMA_NUMBER 2u   /* digits, and a dot and digits if a digit follows the dot */
#define KINYANDOMA_QUOTED 3u   /* from ' " or ` to the first like one that is not doubled */
#define KINYANDOMA_BLOB 4u     /* X or x with ' next, through the next ' */
#define KINYANDOMA_VARIABLE 5u /* one of ? : @ $ and all letters, digits, _, $ and bytes from 80 (hex) behind it */
#define KINYANDOMA_OPERATOR 6u /* all bytes out of + - * / % = < > ! & | ~ that stand there */
#define KINYANDOMA_MARK 7u     /* one of , ; ( ) . [ ] */
#define KINYANDOMA_STOP 8u     /* a failure: a byte that begins nothing of these, a tab among them, or an unclosed quote */

/* One lexeme of a text, by the reading rule. `text` is any bytes, of any length; its encoding is not looked at. Spaces and
 * newlines (0A) before the lexeme are skipped. Answers its kind, as above; `start` is set to where it starts in the text, and
 * `rest` to where the rest starts, right behind it. To cut a text from end to end, call again on the rest, whose places count
 * from its own first byte:
 *
 *   while ((kind = kinyandoma_lexeme(text, text_len, &start, &rest)) != KINYANDOMA_END && kind != KINYANDOMA_STOP) {
 *       ... the lexeme is rest - start bytes, from text + start on ...
 *       text += rest, text_len -= rest;
 *   }
 *
 * With KINYANDOMA_END both are the length, and the rest is empty. With KINYANDOMA_STOP both are the first byte of what could
 * not be read, for a quote or a blob its own first byte. */
uint32_t kinyandoma_lexeme(const uint8_t *text, size_t text_len, size_t *start, size_t *rest);

#ifdef __cplusplus
}
#endif

#endif
