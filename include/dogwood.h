/* Loamribbon for C and for what can call C. Link the archive that `rt lib`, called in crates/dogwood_c, writes to
 * crates/dogwood_c/out/libdogwood_c.a; it needs at most memcpy, memmove and memset, and no other library. examples/c/ has a program.
 *
 * A slice is a pointer and how many elements it has; with no elements the pointer may be any that is not null and is aligned.
 * A place, a total or a length is always written. Nothing is kept between calls, and buffers must not overlap. The result is the number
 * answered (README.md has the table).
 *
 * Room in a token table: three words a token (kind, start, end). A text has at most as many tokens as bytes, 1,048,576, so a table of
 * 3,145,728 words is never too small. */
#ifndef DOGWOOD_H
#define DOGWOOD_H

#include <stddef.h>
#include <stdint.h>

#ifdef __cplusplus
extern "C" {
#endif

/* Tokenising alone: 11, 12, 1, 13, else 0. After 0 the table begins with three words a token (kind, start, end) and *place_or_total is
 * the number of tokens; after every other number the table is as it was and *place_or_total is the place, or for 13 the tokens needed. */
uint32_t dogwood_tokenize(const uint8_t *source, size_t source_len, uint32_t *table, size_t table_words, uint64_t *place_or_total);

/* Testing an outline alone: 11, 12, 1, 13, then 4, else 0. After 4 and 0 the table begins with the text's tokens and *place is 0; after the others
 * it is as with tokenising alone. */
uint32_t dogwood_test_outline(
    const uint8_t *source, size_t source_len, const uint32_t *outline, size_t outline_words, uint32_t *table, size_t table_words, uint64_t *place);

/* Formatting: 11, 12, 1, 13, 4, 2, 3, 5, else 0; and 15 in place of any of 0 to 5 whose bytes are more than output_len.
 *
 *     number                               *place                                    the output
 *      0  laid out                         0                                         begins with the source's mark, if any, and the layout
 *      1  a string without end             its opening quote                         begins with the source, unchanged
 *      2  a comment inside a statement     the start of the first one                the same
 *      3  no statement and no comment      0                                         the same
 *      4  the outline does not fit         0                                         the same
 *      5  nesting above 64                 the first opener that reaches depth 65    the same
 *     11  a source above 1,048,576 bytes   0                                         as it was
 *     12  not UTF-8                        where the first bad character begins      as it was
 *     13  the table is too small           how many tokens it must hold              as it was
 *     15  the output is too small          how many bytes it must hold               as it was
 *
 * 12's place counts in the source; those of 1, 2 and 5 count in the text, which is the source without its mark, as do the outline's offsets and the
 * tokens'. After 0 to 5 *length is how many bytes were written at the start of the output, and those behind them stay; after the others it is 0.
 *
 * After 0, 2, 3, 4 and 5, and after a 15 in place of one of these, the table begins with the text's tokens and the rest is as it was. After 1, 11, 12
 * and 13, and after a 15 in place of 1, it is as it was.
 *
 * To learn the rooms, call again: after 13 with three words for each of *place tokens, after 15 with *place bytes of output. Then neither comes
 * back, so three calls are always enough. */
uint32_t dogwood_format(
    const uint8_t *source, size_t source_len, const uint32_t *outline, size_t outline_words, uint32_t *table, size_t table_words,
    uint8_t *output, size_t output_len, uint64_t *place, uint64_t *length);

#ifdef __cplusplus
}
#endif

#endif
