/* format SOURCE OUTLINE
 *
 * Formats a policy file by its outline, a file of 32-bit words, low byte first. The output goes to stdout (the source as it was, where it was
 * refused by 1 to 5; nothing after 11 and 12), the number answered and its place to stderr. Exit status: 0 laid out, 3 refused, 2 a file that
 * cannot be read or written, or no memory. */
#include <errno.h>
#include <stdint.h>
#include <stdio.h>
#include <stdlib.h>
#include <string.h>

#include "dogwood.h"

enum { LAID_OUT = 0, FAILED = 2, REFUSED = 3 };
enum { SMALL_TABLE = 13, SMALL_OUTPUT = 15 };
enum { FIRST_TOKENS = 256, WORDS_A_TOKEN = 3, BYTES_A_WORD = 4 };

static void *room(size_t count, size_t size)
{
    /* calloc of nothing may give a null pointer, which a slice must not have */
    void *made = calloc(count > 0 ? count : 1, size);
    if (made == NULL) {
        fputs("format: no memory\n", stderr);
        exit(FAILED);
    }
    return made;
}

static void fail(const char *doing, const char *name, const char *why)
{
    fprintf(stderr, "format: cannot %s %s: %s\n", doing, name, why);
    exit(FAILED);
}

static uint8_t *read_file(const char *name, size_t *length)
{
    FILE *file = fopen(name, "rb");
    if (file == NULL)
        fail("read", name, strerror(errno));
    size_t most = 4096, count = 0;
    uint8_t *bytes = room(most, 1);
    for (;;) {
        count += fread(bytes + count, 1, most - count, file);
        if (count < most)
            break;
        uint8_t *larger = room(2 * most, 1);
        memcpy(larger, bytes, count);
        free(bytes);
        bytes = larger;
        most = 2 * most;
    }
    if (ferror(file))
        fail("read", name, strerror(errno));
    fclose(file);
    *length = count;
    return bytes;
}

static uint32_t *read_words(const char *name, size_t *count)
{
    size_t length;
    uint8_t *bytes = read_file(name, &length);
    if (length % BYTES_A_WORD != 0)
        fail("read", name, "its length is no multiple of 4");
    *count = length / BYTES_A_WORD;
    uint32_t *words = room(*count, sizeof *words);
    for (size_t index = 0; index < *count; index++) {
        const uint8_t *word = bytes + BYTES_A_WORD * index;
        words[index] = word[0] | (uint32_t)word[1] << 8 | (uint32_t)word[2] << 16 | (uint32_t)word[3] << 24;
    }
    free(bytes);
    return words;
}

int main(int argc, char **argv)
{
    if (argc != 3) {
        fputs("usage: format SOURCE OUTLINE\n", stderr);
        return FAILED;
    }
    size_t source_len, outline_words;
    uint8_t *source = read_file(argv[1], &source_len);
    uint32_t *outline = read_words(argv[2], &outline_words);

    size_t table_words = WORDS_A_TOKEN * FIRST_TOKENS, output_len = source_len;
    uint32_t *table = room(table_words, sizeof *table);
    uint8_t *output = room(output_len, 1);
    uint64_t place, length;
    uint32_t number;
    for (;;) {
        number = dogwood_format(source, source_len, outline, outline_words, table, table_words, output, output_len, &place, &length);
        if (number == SMALL_TABLE) {
            table_words = WORDS_A_TOKEN * (size_t)place;
            free(table);
            table = room(table_words, sizeof *table);
        } else if (number == SMALL_OUTPUT) {
            output_len = (size_t)place;
            free(output);
            output = room(output_len, 1);
        } else {
            break;
        }
    }

    int status = number == 0 ? LAID_OUT : REFUSED;
    if (fwrite(output, 1, (size_t)length, stdout) != (size_t)length || fflush(stdout) != 0)
        fail("write", "the output", strerror(errno));
    fprintf(stderr, "%lu %llu\n", (unsigned long)number, (unsigned long long)place);
    free(output);
    free(table);
    free(outline);
    free(source);
    return status;
}
