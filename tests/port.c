/* Calls the C functions of crates/pass_c. A line of standard input is `inline HEX ROOM WORDS RUNS`, `roots HEX ROOM WORDS RUNS`, `root HEX N
   WORDS RUNS`, or `canon HEX ROOM WORDS RUNS`, `resolve HEX ROOM WORDS RUNS` or `text HEX ROOM WORDS RUNS`, which take no run limit and pass RUNS over: a file's bytes (`-` for none), the length of the buffer for the answer (bytes, or words of root bindings) or the number of a root
   binding, the number of working words and the run limit. A sixth word is a kind table's bytes (`-` for none): then it is the function under a lent table that
   is called; `canon`, `resolve` and `text` have none. For each it prints `REFUSED LENGTH RUNS CHANGED WRITTEN KEPT STATE STACK`: the numbers of the answer (0 0 for the
   runs and mark of `roots`, `canon`, `resolve` and `text`; of `root` whether there is one as the length, and its five words as what was written), what was written, in hex digits (`-` for nothing), whether all behind it, the file and the table are as they were, the
   working words: `same`, `clear` (the first 16,384 are 0, the others as they were) or `other`, and how many bytes of stack were used.
   Each call has a painted stack of 256 KiB with a guard below it. */
#include <pthread.h>
#include <stdint.h>
#include <stdio.h>
#include <stdlib.h>
#include <string.h>
#include <sys/mman.h>

#include "../include/negbosun.h"
#include "buffers.h"

enum { STACK = 256 * 1024, PAGE = 4096, PAINT = 0x5a };

struct call {
    char what;
    const uint8_t *file;
    size_t file_length;
    /* NULL where no table is lent */
    const uint8_t *table;
    size_t table_length;
    uint8_t *result;
    size_t room;
    size_t number;
    uint32_t *words;
    size_t count;
    uint32_t runs;
    struct negbosun_inlined answer;
    size_t written;
    uint8_t *top;
};

static uint8_t *stack;

static struct negbosun_binding root_of(struct call *c) {
    if (c->table) {
        return negbosun_root_under(c->file, c->file_length, c->table, c->table_length, c->words, c->count, c->runs, (uint32_t)c->number);
    }
    return negbosun_root(c->file, c->file_length, c->words, c->count, c->runs, (uint32_t)c->number);
}

static struct negbosun_listed roots_of(struct call *c) {
    if (c->table) {
        return negbosun_roots_under(c->file, c->file_length, c->table, c->table_length, (uint32_t *)c->result, c->room, c->words, c->count, c->runs);
    }
    return negbosun_roots(c->file, c->file_length, (uint32_t *)c->result, c->room, c->words, c->count, c->runs);
}

static struct negbosun_inlined inlined_of(struct call *c) {
    if (c->table) {
        return negbosun_inline_under(c->file, c->file_length, c->table, c->table_length, c->result, c->room, c->words, c->count, c->runs);
    }
    return negbosun_inline(c->file, c->file_length, c->result, c->room, c->words, c->count, c->runs);
}

static struct negbosun_written written_of(struct call *c) {
    if (c->what == 'c') {
        return negbosun_canon(c->file, c->file_length, c->result, c->room, c->words, c->count);
    }
    if (c->what == 's') {
        return negbosun_resolve(c->file, c->file_length, c->result, c->room, c->words, c->count);
    }
    return negbosun_text(c->file, c->file_length, c->result, c->room, c->words, c->count);
}

static void *on_stack(void *given) {
    struct call *c = given;
    uint8_t here;
    c->top = &here;
    if (c->what == 'n') {
        struct negbosun_binding r = root_of(c);
        uint32_t all[NEGBOSUN_ROOT_WORDS] = {r.text, (uint32_t)r.context, (uint32_t)(r.context >> 32), r.prevented, r.count};
        c->answer = (struct negbosun_inlined){r.refused, r.found, 0, 0};
        c->written = sizeof all * (size_t)r.found;
        memcpy(c->result, all, c->written);
    } else if (c->what == 'r') {
        struct negbosun_listed r = roots_of(c);
        c->answer = (struct negbosun_inlined){r.refused, r.count, 0, 0};
        c->written = sizeof(uint32_t) * NEGBOSUN_ROOT_WORDS * r.count;
    } else if (c->what != 'i') {
        struct negbosun_written r = written_of(c);
        c->answer = (struct negbosun_inlined){r.refused, r.length, 0, 0};
        c->written = r.length;
    } else {
        c->answer = inlined_of(c);
        c->written = c->answer.length;
    }
    return NULL;
}

/* How many bytes of stack the call used, from its caller's frame to the lowest byte that is painted over. */
static size_t call_on_stack(struct call *c) {
    pthread_attr_t attributes;
    pthread_t thread;
    memset(stack, PAINT, STACK);
    pthread_attr_init(&attributes);
    if (pthread_attr_setstack(&attributes, stack, STACK) != 0 || pthread_create(&thread, &attributes, on_stack, c) != 0) {
        exit(1);
    }
    pthread_join(thread, NULL);
    pthread_attr_destroy(&attributes);
    uint8_t *lowest = stack;
    while (lowest < c->top && *lowest == PAINT) {
        lowest++;
    }
    return (size_t)(c->top - lowest);
}

static void show(const struct call *c, size_t all, const uint8_t *before, const uint8_t *lent, size_t used) {
    size_t kept = memcmp(before, c->file, c->file_length) == 0 && (!c->table || memcmp(lent, c->table, c->table_length) == 0);
    for (size_t i = c->written; i < all; i++) {
        kept &= c->result[i] == byte_at(i);
    }
    printf("%u %zu %u %u ", c->answer.refused, c->answer.length, c->answer.runs, c->answer.changed);
    for (size_t i = 0; i < c->written && i < all; i++) {
        printf("%02x", c->result[i]);
    }
    printf("%s%zu %s %zu\n", c->written ? " " : "- ", kept, state(c->words, c->count), used);
    /* whoever asks may wait for this answer before asking on */
    fflush(stdout);
}

/* the bytes of hex digits, and a copy of them */
static size_t twice(const char *hex, uint8_t **one, uint8_t **other) {
    *one = malloc(strlen(hex) + 1);
    *other = malloc(strlen(hex) + 1);
    size_t n = unhex(hex, *one);
    memcpy(*other, *one, n);
    return n;
}

static void run(const char *what, const char *hex, size_t room, size_t count, uint32_t runs, const char *kinds) {
    /* `i` the result, `c` the canonical file, `s` the resolved one, `t` the text, `r` all root bindings, `n` the one of a number, for whose words there is room */
    char asks = strcmp(what, "root") == 0 ? 'n' : strcmp(what, "resolve") == 0 ? 's' : what[0];
    size_t number = room;
    if (asks == 'n') {
        room = 4;
    }
    size_t all = room * (asks == 'r' || asks == 'n' ? 4 : 1) + GUARD;
    uint8_t *file, *before, *table = NULL, *lent = NULL;
    uint8_t *result = malloc(all);
    uint32_t *words = malloc((count + GUARD) * sizeof *words);
    size_t n = twice(hex, &file, &before);
    size_t entries = kinds ? twice(kinds, &table, &lent) : 0;
    for (size_t i = 0; i < all; i++) {
        result[i] = byte_at(i);
    }
    for (size_t i = 0; i < count + GUARD; i++) {
        words[i] = word_at(i);
    }
    struct call c = {asks, file, n, table, entries, result, room, number, words, count, runs, {0, 0, 0, 0}, 0, NULL};
    size_t used = call_on_stack(&c);
    show(&c, all, before, lent, used);
    free(file);
    free(before);
    free(table);
    free(lent);
    free(result);
    free(words);
}

int main(void) {
    char *line = NULL;
    size_t size = 0;
    uint8_t *memory = mmap(NULL, STACK + PAGE, PROT_READ | PROT_WRITE, MAP_PRIVATE | MAP_ANONYMOUS, -1, 0);
    if (memory == MAP_FAILED || mprotect(memory, PAGE, PROT_NONE) != 0) {
        return 1;
    }
    stack = memory + PAGE;
    while (getline(&line, &size, stdin) > 0) {
        char *words[6];
        for (int i = 0; i < 6; i++) {
            words[i] = strtok(i ? NULL : line, " \n");
            if (words[i] == NULL && i < 5) {
                return 1;
            }
        }
        run(words[0], words[1], strtoul(words[2], NULL, 10), strtoul(words[3], NULL, 10), (uint32_t)strtoul(words[4], NULL, 10), words[5]);
    }
    free(line);
    return 0;
}
