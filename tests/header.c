/* A small program over include/negbosun.h, in the C and C++ that both have: `header FILE.tree` takes a file through the functions and holds them to
   what the header promises. The last line is `N passed, M failed`. */
#include <negbosun.h>

#include <stdio.h>
#include <stdlib.h>
#include <string.h>

enum { BEHIND = 8, BYTE = 0xa5, ROOT_WORDS = NEGBOSUN_ROOT_WORDS * NEGBOSUN_MOST_ROOTS };

static uint8_t file[NEGBOSUN_MOST_BYTES + 1];
static size_t file_length;
static uint8_t result[NEGBOSUN_MOST_BYTES + BEHIND];
static uint32_t roots[ROOT_WORDS + BEHIND];
static uint32_t words[NEGBOSUN_WORDS + BEHIND];
static uint8_t table[NEGBOSUN_TABLE_BYTES + 1];
static int passed, failed;

static void check(int holds, const char *what) {
    passed += holds != 0;
    failed += holds == 0;
    if (!holds) {
        printf("%s\n", what);
    }
}

/* no byte is 0, so that a cleared word shows */
static void fill(void) {
    memset(result, BYTE, sizeof result);
    memset(roots, BYTE, sizeof roots);
    memset(words, BYTE, sizeof words);
}

static int all_are(const void *memory, size_t length, int byte) {
    const uint8_t *bytes = (const uint8_t *)memory;
    size_t same = 0;
    while (same < length && bytes[same] == byte) {
        same++;
    }
    return same == length;
}

static int words_cleared(void) {
    return all_are(words, NEGBOSUN_WORDS * sizeof *words, 0) && all_are(words + NEGBOSUN_WORDS, BEHIND * sizeof *words, BYTE);
}

static struct negbosun_inlined inline_file(size_t length, size_t room, size_t count, uint32_t runs) {
    fill();
    return negbosun_inline(file, length, result, room, words, count, runs);
}

static struct negbosun_listed list_roots(size_t length, size_t room, size_t count, uint32_t runs) {
    fill();
    return negbosun_roots(file, length, roots, room, words, count, runs);
}

static int is_refusal(struct negbosun_inlined answer, uint32_t number) {
    return answer.refused == number && answer.length == 0 && answer.runs == 0 && answer.changed == 0 && all_are(result, sizeof result, BYTE);
}

static int lists_refusal(struct negbosun_listed answer, uint32_t number) {
    return answer.refused == number && answer.count == 0 && all_are(roots, sizeof roots, BYTE);
}

static void layout(void) {
    check(sizeof(struct negbosun_inlined) == 24, "an answer has 24 bytes");
    check(offsetof(struct negbosun_inlined, length) == 8, "its length is at 8");
    check(offsetof(struct negbosun_inlined, changed) == 20, "its mark is at 20");
    check(sizeof(struct negbosun_listed) == 16, "the other one has 16");
    check(offsetof(struct negbosun_listed, count) == 8, "its count is at 8");
    check(sizeof(struct negbosun_binding) == 32, "a root binding has 32");
    check(offsetof(struct negbosun_binding, context) == 8, "its context is at 8");
    check(offsetof(struct negbosun_binding, prevented) == 20, "its mark is at 20");
    check(offsetof(struct negbosun_binding, count) == 24, "its count is at 24");
    check(sizeof(struct negbosun_written) == 16, "the answer of the writers has 16");
    check(offsetof(struct negbosun_written, length) == 8, "its length is at 8");
}

static void results(void) {
    struct negbosun_inlined done = inline_file(file_length, NEGBOSUN_MOST_BYTES, NEGBOSUN_WORDS + BEHIND, NEGBOSUN_MOST_RUNS);
    check(done.refused == 0 && done.runs >= 1 && done.runs <= NEGBOSUN_MOST_RUNS && done.changed <= 1, "the file has a result");
    check(done.length >= 48 && done.length <= NEGBOSUN_MOST_BYTES, "the result has a length");
    check(all_are(result + done.length, sizeof result - done.length, BYTE), "the bytes behind a result are kept");
    check(words_cleared(), "a result leaves cleared words");
    check(is_refusal(inline_file(file_length, done.length - 1, NEGBOSUN_WORDS + BEHIND, NEGBOSUN_MOST_RUNS), NEGBOSUN_REFUSED_ROOM), "one byte below is 10");
    check(words_cleared(), "10 leaves cleared words");
    check(inline_file(file_length, done.length, NEGBOSUN_WORDS, NEGBOSUN_MOST_RUNS).length == done.length, "a full buffer will do");
}

static void lists(void) {
    struct negbosun_listed done = list_roots(file_length, ROOT_WORDS, NEGBOSUN_WORDS + BEHIND, NEGBOSUN_MOST_RUNS);
    size_t used = NEGBOSUN_ROOT_WORDS * done.count;
    check(done.refused == 0 && done.count >= 1 && done.count <= NEGBOSUN_MOST_ROOTS, "the file has root bindings");
    for (size_t at = 0; at < used; at += NEGBOSUN_ROOT_WORDS) {
        check(roots[at + 3] <= 1, "a mark is 0 or 1");
    }
    check(all_are(roots + used, sizeof roots - used * sizeof *roots, BYTE), "the words behind the root bindings are kept");
    check(words_cleared(), "root bindings leave cleared words");
    check(lists_refusal(list_roots(file_length, used - 1, NEGBOSUN_WORDS, NEGBOSUN_MOST_RUNS), NEGBOSUN_REFUSED_ROOM), "one word below is 10");
}

static struct negbosun_binding root_of(size_t length, size_t count, uint32_t runs, uint32_t n) {
    memset(words, BYTE, sizeof words);
    return negbosun_root(file, length, words, count, runs, n);
}

static int is_none(struct negbosun_binding answer, uint32_t number) {
    return answer.refused == number && answer.found == 0 && answer.context == 0 && answer.text == 0 && answer.prevented == 0 && answer.count == 0;
}

/* the n-th of the listing is the root binding of number n */
static void numbers(void) {
    struct negbosun_listed done = list_roots(file_length, ROOT_WORDS, NEGBOSUN_WORDS, NEGBOSUN_MOST_RUNS);
    for (uint32_t n = 0; n < done.count; n++) {
        const uint32_t *at = roots + NEGBOSUN_ROOT_WORDS * n;
        struct negbosun_binding one = root_of(file_length, NEGBOSUN_WORDS + BEHIND, NEGBOSUN_MOST_RUNS, n);
        check(one.refused == 0 && one.found == 1 && one.text == at[0] && one.prevented == at[3], "a root binding by its number");
        check(one.context == ((uint64_t)at[2] << 32 | at[1]), "its context");
        check(one.count == at[4], "its count");
        check(words_cleared(), "a root binding leaves cleared words");
    }
    check(is_none(root_of(file_length, NEGBOSUN_WORDS, NEGBOSUN_MOST_RUNS, (uint32_t)done.count), 0), "none behind the last");
    check(is_none(root_of(file_length, NEGBOSUN_WORDS, NEGBOSUN_MOST_RUNS, UINT32_MAX), 0), "none at the greatest number");
    check(is_none(root_of(file_length, NEGBOSUN_WORDS - 1, 1, 0), NEGBOSUN_REFUSED_RUNS_OR_WORDS), "a word less is 1");
    check(all_are(words, sizeof words, BYTE), "1 keeps the words");
    check(is_none(root_of(file_length - 1, NEGBOSUN_WORDS, 1, 0), NEGBOSUN_REFUSED_LENGTHS), "a byte less is 4");
}

static struct negbosun_written canon_file(const uint8_t *given, size_t length, size_t room, size_t count) {
    fill();
    return negbosun_canon(given, length, result, room, words, count);
}

static int writes_refusal(struct negbosun_written answer, uint32_t number) {
    return answer.refused == number && answer.length == 0 && all_are(result, sizeof result, BYTE);
}

static void canonical(void) {
    static uint8_t one[NEGBOSUN_MOST_BYTES];
    struct negbosun_written done = canon_file(file, file_length, file_length, NEGBOSUN_WORDS + BEHIND), again;
    check(done.refused == 0 && done.length >= 48 && done.length <= file_length, "the file has a canonical file, which is no longer");
    check(all_are(result + done.length, sizeof result - done.length, BYTE), "the bytes behind it are kept");
    check(words_cleared(), "it leaves cleared words");
    memcpy(one, result, done.length);
    again = canon_file(one, done.length, sizeof result, NEGBOSUN_WORDS);
    check(again.refused == 0 && again.length == done.length && memcmp(one, result, done.length) == 0, "it is its own");
    check(writes_refusal(canon_file(file, file_length, done.length - 1, NEGBOSUN_WORDS + BEHIND), NEGBOSUN_REFUSED_CANON_ROOM), "one byte below is 16");
    check(words_cleared(), "16 leaves cleared words");
    check(writes_refusal(canon_file(file, file_length, sizeof result, NEGBOSUN_WORDS - 1), NEGBOSUN_REFUSED_RUNS_OR_WORDS), "a word less is 1");
    check(all_are(words, sizeof words, BYTE), "1 keeps the words");
    check(writes_refusal(canon_file(file, file_length - 1, 0, NEGBOSUN_WORDS), NEGBOSUN_REFUSED_LENGTHS), "a byte less is 4, before 16");
    check(writes_refusal(canon_file(file, 0, 0, NEGBOSUN_WORDS), NEGBOSUN_REFUSED_HEADER), "no bytes are 2, before 16");
}

static struct negbosun_written resolve_file(const uint8_t *given, size_t length, size_t room, size_t count) {
    fill();
    return negbosun_resolve(given, length, result, room, words, count);
}

static void resolved(void) {
    static uint8_t one[NEGBOSUN_MOST_BYTES];
    struct negbosun_written done = resolve_file(file, file_length, file_length, NEGBOSUN_WORDS + BEHIND), again;
    check(done.refused == 0 && done.length == file_length, "the file is resolved, and as long as before");
    check(all_are(result + done.length, sizeof result - done.length, BYTE), "the bytes behind it are kept");
    check(words_cleared(), "it leaves cleared words");
    memcpy(one, result, done.length);
    check(memcmp(one, file, 32) == 0, "its head is the given one");
    again = resolve_file(one, done.length, sizeof result, NEGBOSUN_WORDS);
    check(again.refused == 0 && again.length == done.length && memcmp(one, result, done.length) == 0, "resolving it changes nothing");
    check(writes_refusal(resolve_file(file, file_length, file_length - 1, NEGBOSUN_WORDS + BEHIND), NEGBOSUN_REFUSED_ROOM), "one byte below is 10");
    check(words_cleared(), "10 leaves cleared words");
    check(writes_refusal(resolve_file(file, file_length, sizeof result, NEGBOSUN_WORDS - 1), NEGBOSUN_REFUSED_RUNS_OR_WORDS), "a word less is 1");
    check(all_are(words, sizeof words, BYTE), "1 keeps the words");
    check(writes_refusal(resolve_file(file, file_length - 1, 0, NEGBOSUN_WORDS), NEGBOSUN_REFUSED_LENGTHS), "a byte less is 4, before 10");
    check(writes_refusal(resolve_file(file, 0, 0, NEGBOSUN_WORDS), NEGBOSUN_REFUSED_HEADER), "no bytes are 2, before 10");
}

static struct negbosun_written print_file(const uint8_t *given, size_t length, size_t room, size_t count) {
    fill();
    return negbosun_text(given, length, result, room, words, count);
}

/* the sample fits into the buffer of a result */
static void printed(void) {
    struct negbosun_written done = print_file(file, file_length, sizeof result, NEGBOSUN_WORDS + BEHIND), again;
    check(done.refused == 0 && done.length > 0 && result[done.length - 1] == 10, "the script is printed, a line for each statement");
    check(all_are(result + done.length, sizeof result - done.length, BYTE), "the bytes behind the text are kept");
    check(words_cleared(), "printing leaves cleared words");
    again = print_file(file, file_length, done.length, NEGBOSUN_WORDS);
    check(again.refused == 0 && again.length == done.length, "a buffer of its length suffices");
    check(writes_refusal(print_file(file, file_length, done.length - 1, NEGBOSUN_WORDS + BEHIND), NEGBOSUN_REFUSED_TEXT_ROOM), "one byte below is 11");
    check(words_cleared(), "11 leaves cleared words");
    check(writes_refusal(print_file(file, file_length, sizeof result, NEGBOSUN_WORDS - 1), NEGBOSUN_REFUSED_RUNS_OR_WORDS), "a word less is 1");
    check(all_are(words, sizeof words, BYTE), "1 keeps the words");
    check(writes_refusal(print_file(file, file_length - 1, 0, NEGBOSUN_WORDS), NEGBOSUN_REFUSED_LENGTHS), "a byte less is 4, before 11");
    check(writes_refusal(print_file(file, 0, 0, NEGBOSUN_WORDS), NEGBOSUN_REFUSED_HEADER), "no bytes are 2, before 11");
}

/* `x;`, with x called by another byte */
static void without_text(void) {
    static uint8_t one[32 + 16 * 3 + 4 + 1] = {1, 0, 0, 0, 85, 0, 0, 0, 3, 0, 0, 0, 32, 0, 0, 0, 1, 0, 0, 0, 80, 0, 0, 0, 84, 0, 0, 0, 1, 0, 0, 0};
    static const uint8_t nodes[3][3] = {{1, 0, 1}, {4, 0, 1}, {21, 0, 0}};
    for (size_t i = 0; i < 3; i++) {
        memcpy(one + 32 + 16 * i, nodes[i], sizeof nodes[i]);
    }
    one[80] = 1;
    one[84] = 'x';
    check(print_file(one, sizeof one, 4, NEGBOSUN_WORDS).length == 4 && memcmp(result, "x ;\n", 4) == 0, "a name is printed");
    one[84] = '7';
    check(writes_refusal(print_file(one, sizeof one, 0, NEGBOSUN_WORDS + BEHIND), NEGBOSUN_REFUSED_NO_TEXT), "what is no name is 12, before 11");
    check(words_cleared(), "12 leaves cleared words");
}

/* bytes may stand anywhere */
static void unaligned(void) {
    static uint8_t given[NEGBOSUN_MOST_BYTES + 8], one[NEGBOSUN_MOST_BYTES], other[NEGBOSUN_MOST_BYTES + 8];
    struct negbosun_written done = resolve_file(file, file_length, file_length, NEGBOSUN_WORDS);
    memcpy(one, result, done.length);
    for (size_t shift = 1; shift < 8; shift++) {
        memcpy(given + shift, file, file_length);
        fill();
        done = negbosun_resolve(given + shift, file_length, other + 8 - shift, file_length, words, NEGBOSUN_WORDS);
        check(done.refused == 0 && memcmp(one, other + 8 - shift, file_length) == 0, "wherever the buffers stand, it is the same file");
    }
}

/* `let x; let x;`, and the same with `var`, which is no clash */
static void declared_twice(void) {
    static uint8_t two[32 + 16 * 7 + 4 + 1] = {1, 0, 0, 0, 149, 0, 0, 0, 7, 0, 0, 0, 32, 0, 0, 0, 1, 0, 0, 0, 144, 0, 0, 0, 148, 0, 0, 0, 1, 0, 0, 0};
    static const uint8_t nodes[7][3] = {{1, 0, 2}, {5, 1, 1}, {6, 0, 1}, {20, 0, 0}, {5, 1, 1}, {6, 0, 1}, {20, 0, 0}};
    for (size_t i = 0; i < 7; i++) {
        memcpy(two + 32 + 16 * i, nodes[i], sizeof nodes[i]);
    }
    two[144] = 1;
    two[148] = 'x';
    check(writes_refusal(resolve_file(two, sizeof two, 0, NEGBOSUN_WORDS + BEHIND), NEGBOSUN_REFUSED_TWICE), "a name twice is 13, before 10");
    check(words_cleared(), "13 leaves cleared words");
    two[32 + 16 + 1] = two[32 + 4 * 16 + 1] = 0;
    check(resolve_file(two, sizeof two, sizeof two, NEGBOSUN_WORDS).refused == 0, "by var it is none");
    check(result[32 + 3 * 16 + 8] == 1 && result[32 + 6 * 16 + 8] == 1, "and its context is the script's scope, 1");
}

static void refusals(void) {
    check(is_refusal(inline_file(file_length, sizeof result, NEGBOSUN_WORDS, 0), NEGBOSUN_REFUSED_RUNS_OR_WORDS), "no run is 1");
    check(is_refusal(inline_file(file_length, sizeof result, NEGBOSUN_WORDS, NEGBOSUN_MOST_RUNS + 1), NEGBOSUN_REFUSED_RUNS_OR_WORDS), "17 runs are 1");
    check(is_refusal(inline_file(file_length, sizeof result, NEGBOSUN_WORDS - 1, 1), NEGBOSUN_REFUSED_RUNS_OR_WORDS), "a word less is 1");
    check(all_are(words, sizeof words, BYTE), "1 keeps the words");
    check(is_refusal(inline_file(0, 0, NEGBOSUN_WORDS, 1), NEGBOSUN_REFUSED_HEADER), "no bytes are 2");
    check(words_cleared(), "2 leaves cleared words");
    check(is_refusal(inline_file(file_length - 1, sizeof result, NEGBOSUN_WORDS, 1), NEGBOSUN_REFUSED_LENGTHS), "a byte less is 4");
    check(lists_refusal(list_roots(file_length - 1, ROOT_WORDS, NEGBOSUN_WORDS, 1), NEGBOSUN_REFUSED_LENGTHS), "for root bindings too");
    check(lists_refusal(list_roots(0, 0, 0, 1), NEGBOSUN_REFUSED_RUNS_OR_WORDS), "no words are 1");
}

/* no pair is allowed, which only the empty script has none of */
static void tables(void) {
    memset(table, 0, sizeof table);
    fill();
    check(is_refusal(negbosun_inline_under(file, file_length, table, NEGBOSUN_TABLE_BYTES, result, sizeof result, words, NEGBOSUN_WORDS + BEHIND, 1),
                     NEGBOSUN_REFUSED_NODES), "a forbidden pair is 6");
    check(words_cleared(), "6 leaves cleared words");
    for (size_t length = NEGBOSUN_TABLE_BYTES - 1; length <= NEGBOSUN_TABLE_BYTES + 1; length += 2) {
        fill();
        check(is_refusal(negbosun_inline_under(file, file_length, table, length, result, sizeof result, words, NEGBOSUN_WORDS + BEHIND, 1),
                         NEGBOSUN_REFUSED_TABLE), "a table of another length is 14");
        check(words_cleared(), "14 leaves cleared words");
    }
    fill();
    check(is_refusal(negbosun_inline_under(file, 0, table, 0, result, 0, words, NEGBOSUN_WORDS, 1), NEGBOSUN_REFUSED_TABLE), "no table is 14, before 2");
    fill();
    check(is_refusal(negbosun_inline_under(file, 0, table, 0, result, 0, words, NEGBOSUN_WORDS - 1, 1), NEGBOSUN_REFUSED_RUNS_OR_WORDS), "1 before 14");
    check(all_are(words, sizeof words, BYTE), "1 keeps the words");
    /* a script under a script */
    table[0] = 1;
    fill();
    check(lists_refusal(negbosun_roots_under(file, file_length, table, NEGBOSUN_TABLE_BYTES, roots, ROOT_WORDS, words, NEGBOSUN_WORDS + BEHIND, 1),
                        NEGBOSUN_REFUSED_PAIRS), "a pair that nothing allows is 15");
    check(words_cleared(), "15 leaves cleared words");
    table[NEGBOSUN_TABLE_BYTES - 1] = 2;
    check(is_none(negbosun_root_under(file, file_length, table, NEGBOSUN_TABLE_BYTES, words, NEGBOSUN_WORDS, 1, 0), NEGBOSUN_REFUSED_TABLE), "14 before 15");
    check(table[0] == 1 && all_are(table + 1, NEGBOSUN_TABLE_BYTES - 2, 0) && table[NEGBOSUN_TABLE_BYTES - 1] == 2, "the table is kept");
}

int main(int count, char **given) {
    FILE *input = count == 2 ? fopen(given[1], "rb") : NULL;
    if (input == NULL) {
        fprintf(stderr, "usage: header FILE.tree\n");
        return 2;
    }
    file_length = fread(file, 1, sizeof file, input);
    fclose(input);
    layout();
    results();
    lists();
    numbers();
    canonical();
    resolved();
    printed();
    without_text();
    unaligned();
    declared_twice();
    refusals();
    tables();
    printf("%d passed, %d failed\n", passed, failed);
    return failed != 0;
}
