/* Calls the C entry of crates/file_copy_c. A line of standard input is `HEX ROOM WORDS`: a file's bytes (`-` for none), the length of the
   result buffer and the number of words. For each it prints `REFUSED LENGTH RESULT KEPT STATE`: the two numbers of the answer, the
   first LENGTH bytes of the result (`-` for none), whether the bytes behind them and the file are as they were, and the words: `same`,
   `clear` (the first 16,384 are 0, the others as they were) or `other`. */
#include <stdint.h>
#include <stdio.h>
#include <stdlib.h>
#include <string.h>

#include "buffers.h"

struct copied {
    uint32_t refused;
    size_t length;
};

struct copied negbosun_copy(const uint8_t *file, size_t file_length, uint8_t *result, size_t room, uint32_t *words, size_t count);

static void show(struct copied c, const uint8_t *result, size_t room) {
    printf("%u %zu ", c.refused, c.length);
    for (size_t i = 0; i < c.length && i < room; i++) {
        printf("%02x", result[i]);
    }
    printf(c.length ? " " : "- ");
}

static void run(const char *hex, size_t room, size_t count) {
    uint8_t *file = malloc(strlen(hex) + 1), *before = malloc(strlen(hex) + 1);
    uint8_t *result = malloc(room + GUARD);
    uint32_t *words = malloc((count + GUARD) * sizeof *words);
    size_t n = unhex(hex, file), kept = 1;
    memcpy(before, file, n);
    for (size_t i = 0; i < room + GUARD; i++) {
        result[i] = byte_at(i);
    }
    for (size_t i = 0; i < count + GUARD; i++) {
        words[i] = word_at(i);
    }
    struct copied c = negbosun_copy(file, n, result, room, words, count);
    for (size_t i = c.length; i < room + GUARD; i++) {
        kept &= result[i] == byte_at(i);
    }
    show(c, result, room);
    printf("%d %s\n", kept && memcmp(before, file, n) == 0, state(words, count));
    free(file);
    free(before);
    free(result);
    free(words);
}

int main(void) {
    char *line = NULL;
    size_t size = 0;
    while (getline(&line, &size, stdin) > 0) {
        char *hex = strtok(line, " "), *room = strtok(NULL, " "), *count = strtok(NULL, " ");
        if (hex == NULL || room == NULL || count == NULL) {
            return 1;
        }
        run(hex, strtoul(room, NULL, 10), strtoul(count, NULL, 10));
    }
    free(line);
    return 0;
}
