/* Buffers of the drivers tests/port.c and tests/treefile.c: filled with a pattern, so that what a call changed shows. */
#include <stdint.h>
#include <stdlib.h>
#include <string.h>

enum { CLEARED = 16384, GUARD = 64 };

static uint8_t byte_at(size_t i) { return (uint8_t)(i * 7 + 3); }

/* never 0, so that a cleared word shows */
static uint32_t word_at(size_t i) { return (uint32_t)(i * 2654435761u) | 1u; }

/* the words and those of the guard: `same`, `clear` (the first 16,384 are 0, the others as they were) or `other` */
static const char *state(const uint32_t *words, size_t count) {
    size_t same = 0, zero = 0, all = count + GUARD;
    for (size_t i = 0; i < all; i++) {
        same += words[i] == word_at(i);
        zero += i < CLEARED && words[i] == 0;
    }
    if (same == all) {
        return "same";
    }
    return count >= CLEARED && zero == CLEARED && same == all - CLEARED ? "clear" : "other";
}

/* the bytes of hex digits, `-` for none, and how many */
static size_t unhex(const char *hex, uint8_t *out) {
    size_t n = hex[0] == '-' ? 0 : strlen(hex) / 2;
    for (size_t i = 0; i < n; i++) {
        char digits[3] = {hex[2 * i], hex[2 * i + 1], 0};
        out[i] = (uint8_t)strtoul(digits, NULL, 16);
    }
    return n;
}
