/* Negbosun: the proved variable inliner for gate scripts, as C functions of libnegbosun.a (x86-64, System V calling convention).

   A script goes in and comes out as a tree file, whose format docs/TREE.md has (installed: /usr/share/doc/negbosun/TREE.md).

   What holds of every function here is proved, for all arguments that C allows:

   - It returns. It ends in a result, then `refused` is 0, or in one of the refusals below, then every other field is 0.
   - It is a function of its arguments: equal files, tables, lengths, run limits and, for negbosun_root, numbers give equal answers. What the buffers
     that are written held before does not matter.
   - It reads and writes inside what is lent to it and nowhere else. `file` keeps its bytes, and so does `table`.
   - Any bytes may be given as a file or as a table, of any length; a length of 0 is allowed everywhere.

   The library has no memory of its own and calls nothing but the C library's functions on bytes (memset and its like). So it allocates nothing, does no
   input or output, and keeps nothing between calls; threads may call it at once, each on buffers of its own. It uses less than 256 KiB of stack.
   These are held by tests.

   What is asked of the caller is what C cannot check:

   - A pointer points to as many elements as the length behind it says. It is not NULL, even where the length is 0, and a uint32_t pointer is aligned.
   - The buffers that are written overlap neither each other nor `file` nor `table`, and nobody else uses them during the call. `file` and `table` may
     overlap.

   Time. An ordinary script of 1,000 nodes takes under a millisecond. Yet a small file can take very long: a list of statements is walked again inside
   each list around it, and a right side of && or || is walked twice. With functions in one another, `var v = function () { ... };`, each further one
   doubles the time: 18 take a tenth of a second, 22 take two seconds, and 31, the most that the limits let through, would at that rate take a quarter of
   an hour, in a file of 156 nodes; with hundreds of statements in the innermost, days. A call cannot be interrupted: whoever takes scripts from strangers makes it in a process
   of its own and ends that after a time. negbosun_canon, negbosun_resolve and negbosun_text run no pass: no file was found that takes them longer than some
   milliseconds, or, with a text of some megabytes, some tens of them. docs/PERFORMANCE.md has figures. */
#ifndef NEGBOSUN_H
#define NEGBOSUN_H

#include <stddef.h>
#include <stdint.h>

#ifdef __cplusplus
extern "C" {
#endif

/* The version of this header and of the package it comes in. */
#define NEGBOSUN_VERSION "0.1.0"

/* A pass does at most so many runs. */
#define NEGBOSUN_MOST_RUNS 16
/* So many working words a call takes; it leaves further ones alone. */
#define NEGBOSUN_WORDS 16384
/* No readable file and no result is longer: 32 + 16 * 1,024 + 4 * 256 + 4,096 bytes. */
#define NEGBOSUN_MOST_BYTES 21536
/* No script has more root bindings, */
#define NEGBOSUN_MOST_ROOTS 256
/* and each takes so many words. */
#define NEGBOSUN_ROOT_WORDS 5
/* No text is longer. The longest is `switch ( new S ( S , .. ) ) { }` of 1,024 nodes, of which 1,021 are strings S of 4,096 bytes `"` or `\`: each is 8,194 bytes, two
   quotes and each byte with its `\`, and all of them name one text; the other tokens are 1,034 bytes, the blanks between tokens and the line end 2,048. What
   suffices for a file, 32 bytes for each node and each node's text twice, is most often some thousands. */
#define NEGBOSUN_MOST_TEXT_BYTES 8369156
/* A kind table has so many bytes, one for each parent kind and child kind from 1 to 48. */
#define NEGBOSUN_TABLE_BYTES 2304

/* The refusals, by their numbers. A function checks those that it has in this order, but 14 and 15 behind 1 and before 2, 13 behind 6 and before 7, and 12 before 11. Later
   versions may have further ones: treat every `refused` but 0 as a refusal. */
enum negbosun_refusal {
    /* runs outside 1 to 16, or under 16,384 words */
    NEGBOSUN_REFUSED_RUNS_OR_WORDS = 1,
    /* under 32 bytes, or a version other than 1 */
    NEGBOSUN_REFUSED_HEADER = 2,
    /* nodes outside 1 to 1,024, over 256 texts, over 4,096 bytes of text */
    NEGBOSUN_REFUSED_COUNTS = 3,
    /* an offset or length is not the sum of its parts, or not the bytes given */
    NEGBOSUN_REFUSED_LENGTHS = 4,
    /* the texts' ends fall, the last is not the byte count, or two texts are equal */
    NEGBOSUN_REFUSED_TEXTS = 5,
    /* a node against the kinds, an unused field not 0, a text number too large, nodes missing or left over, over 200 deep; under a lent kind table also
       a node under a parent under which the table forbids it */
    NEGBOSUN_REFUSED_NODES = 6,
    /* over 256 different identifiers */
    NEGBOSUN_REFUSED_IDENTIFIERS = 7,
    /* while running: tree or walk over 200 deep, over 32 live scopes, inside over 12 right sides of && or || */
    NEGBOSUN_REFUSED_DEPTH = 8,
    /* while running: over 1,024 nodes, over 512 nodes of recorded values, over 256 live bindings and constants */
    NEGBOSUN_REFUSED_SIZE = 9,
    /* the buffer for the answer is too short */
    NEGBOSUN_REFUSED_ROOM = 10,
    /* of negbosun_text: the buffer for the text is too short */
    NEGBOSUN_REFUSED_TEXT_ROOM = 11,
    /* of negbosun_text: the script has no text. A string has bytes outside 32 to 126; a variable or a property is no name of ASCII letters, digits, `$` and `_`, or a
       variable is a reserved word; a number has its sign bit set, is not finite, or has over 25 digits; or no text of ECMA-262's grammar reads as the tree */
    NEGBOSUN_REFUSED_NO_TEXT = 12,
    /* of negbosun_resolve: a name is declared twice. A name that a let, a const, a block's function or a catch declares is declared twice in one scope, or by a
       var that stands in it too, or is a parameter of the function at the top of whose body it is declared */
    NEGBOSUN_REFUSED_TWICE = 13,
    /* the lent kind table is not NEGBOSUN_TABLE_BYTES long, or a byte of it is above 1 */
    NEGBOSUN_REFUSED_TABLE = 14,
    /* the lent kind table allows a node under a parent under which the kinds forbid it */
    NEGBOSUN_REFUSED_PAIRS = 15,
    /* the buffer for the canonical file is too short */
    NEGBOSUN_REFUSED_CANON_ROOM = 16
};

/* The answer of negbosun_inline. */
struct negbosun_inlined {
    /* a refusal's number, or 0 */
    uint32_t refused;
    /* the result's length in bytes, at most the buffer's */
    size_t length;
    /* the runs done, 1 to the limit */
    uint32_t runs;
    /* 1 if the last run still changed something, so that the limit ended the pass; otherwise 0 */
    uint32_t changed;
};

/* The answer of negbosun_roots. */
struct negbosun_listed {
    /* a refusal's number, or 0 */
    uint32_t refused;
    /* how many root bindings there are; NEGBOSUN_ROOT_WORDS times that is at most the buffer's length */
    size_t count;
};

/* The answer of negbosun_root. */
struct negbosun_binding {
    /* a refusal's number, or 0 */
    uint32_t refused;
    /* 1 if there is a root binding of that number; otherwise 0, and so are the fields below */
    uint32_t found;
    /* its context, which tells apart variables of one name */
    uint64_t context;
    /* the number of its name among the file's texts */
    uint32_t text;
    /* 1 if it must not be inlined, else 0 */
    uint32_t prevented;
    /* how many identifiers were replaced by its value, in all runs, modulo 4,294,967,296 */
    uint32_t count;
};

/* The answer of negbosun_canon, negbosun_resolve and negbosun_text. */
struct negbosun_written {
    /* a refusal's number, or 0 */
    uint32_t refused;
    /* the length in bytes of what was written, at most the buffer's */
    size_t length;
};

/* Runs the pass on a tree file, at most `runs` times, and writes the result's tree file from the beginning of `result`.

   file, file_length      the tree file, in bytes
   result, result_length  room for the result, in bytes; NEGBOSUN_MOST_BYTES always suffice
   words, word_count      working memory, in words; NEGBOSUN_WORDS are needed, what they hold does not matter
   runs                   the run limit, 1 to NEGBOSUN_MOST_RUNS

   Refusals 1 to 10. Success writes `length` bytes; the bytes behind them are kept. A refusal keeps the whole result buffer. Refusal 1 keeps the words;
   after anything else, success included, the first NEGBOSUN_WORDS are 0. Words behind these are never changed.

   A result is itself a readable file, with the texts of the given one. */
struct negbosun_inlined negbosun_inline(const uint8_t *file, size_t file_length, uint8_t *result, size_t result_length, uint32_t *words,
                                        size_t word_count, uint32_t runs);

/* Runs the same pass and writes its root bindings instead: for each NEGBOSUN_ROOT_WORDS words, the number of its name among the file's texts, the low
   and the high half of its context, 1 if it must not be inlined, else 0, and how many identifiers were replaced by its value, in all runs, modulo 4,294,967,296 (`void 0`, a
   constant's value and an identifier in its own place do not count). Each root binding comes once, the oldest first: in the order in which the pass made them.

   file, file_length  the tree file, in bytes
   roots, root_words  room for the root bindings, in words; NEGBOSUN_ROOT_WORDS * NEGBOSUN_MOST_ROOTS always suffice
   words, word_count, runs  as above

   Refusals 1 to 9 are those of negbosun_inline on the same file, word count and run limit; 10 if the root bindings do not fit. What is kept and what is 0
   afterwards is as above, `roots` in place of `result`. */
struct negbosun_listed negbosun_roots(const uint8_t *file, size_t file_length, uint32_t *roots, size_t root_words, uint32_t *words,
                                      size_t word_count, uint32_t runs);

/* Runs the same pass and tells its n-th root binding, counted from 0 in the order of negbosun_roots, or that there is none. Any n will do.

   Refusals 1 to 9, as above; 10 never, since no buffer is lent for the answer. The words are as above. */
struct negbosun_binding negbosun_root(const uint8_t *file, size_t file_length, uint32_t *words, size_t word_count, uint32_t runs, uint32_t n);

/* The three functions above under a mill's own kind table. The entry of a parent kind p and a child kind c is byte (p - 1) * 48 + (c - 1), 1 if a node of kind c
   may stand under one of kind p at this mill and 0 if not; the numbers 0 and 1, and not the digits. docs/TREE.md has the table that the functions above go by;
   a table that is lent may forbid more and allow no more.

   table, table_length  the kind table, in bytes; the others as above

   Refusals 14 and 15 come behind 1 and before all others. A file is then read exactly if the functions above read it and each node of the script stands under
   a parent under which the table allows it; where one does not, and 2 to 5 do not apply, the refusal is 6. All else, what is kept and what is 0 included, is as
   above, and after 14 and 15 it is as after 2: so what is not refused is answered as the functions above answer it, and lent the table that they go by, these
   answer every file as those do.

   Only the script as read is held to the table: a result may have a pair that it forbids. `var a = [1]; a;` becomes `var a; [1];`, also where a list
   may not be a statement. */
struct negbosun_inlined negbosun_inline_under(const uint8_t *file, size_t file_length, const uint8_t *table, size_t table_length, uint8_t *result,
                                              size_t result_length, uint32_t *words, size_t word_count, uint32_t runs);

struct negbosun_listed negbosun_roots_under(const uint8_t *file, size_t file_length, const uint8_t *table, size_t table_length, uint32_t *roots,
                                            size_t root_words, uint32_t *words, size_t word_count, uint32_t runs);

struct negbosun_binding negbosun_root_under(const uint8_t *file, size_t file_length, const uint8_t *table, size_t table_length, uint32_t *words,
                                            size_t word_count, uint32_t runs, uint32_t n);

/* Writes the canonical file of a tree file's script, the one file of that script, from the beginning of `result`: its texts stand in the order of their
   first use by nodes, none that no node uses, and its contexts are numbered from 0 in the order of their first use by names; all else is as it was. The
   bits of a number are no context.

   file, file_length      the tree file, in bytes
   result, result_length  room for the canonical file, in bytes; file_length bytes always suffice, and so do NEGBOSUN_MOST_BYTES
   words, word_count      as above

   Refusals 1 to 7, of which 1 asks for the words alone here, then 16. What is kept and what is 0 afterwards is as with negbosun_inline. No kind table is
   lent: a canonical file has the kinds of the given one at the same places.

   Of canonical files as they are defined (crates/def_canon), which this function writes, it is proved, too:

   - Two files have canonical files of equal bytes exactly when they differ only in text numbering, in unused texts, and by a one-to-one change of contexts.
   - A canonical file is a readable file, no longer than the given one, and its own canonical file.
   - The pass on it gives the same refusal, or the same runs and mark and a result whose canonical file has the same bytes, with the same run limit,
     unless one of the two is refused by 10. */
struct negbosun_written negbosun_canon(const uint8_t *file, size_t file_length, uint8_t *result, size_t result_length, uint32_t *words,
                                       size_t word_count);

/* Resolves a tree file's names: writes the file again from the beginning of `result`, with each name's context worked out from the script. It is the number
   of the innermost scope around the name that declares it, as ECMA-262 lays down (Annex B left out), and 0 where none does; `arguments` that its function
   does not declare is 0. Scopes are numbered from 1 in node order; docs/TREE.md says which nodes have one. The contexts of the file that is given are not
   looked at. All else, texts that no node uses included, is as it was.

   file, file_length      the tree file, in bytes
   result, result_length  room for the resolved file, which is as long as the given one: file_length bytes always suffice
   words, word_count      as above

   Refusals 1 to 6, of which 1 asks for the words alone here, then 13, then 7 and 10, of which 7 counts the identifiers with the contexts that are written. What
   is kept and what is 0 afterwards is as with negbosun_inline. No kind table is lent.

   Of this function it is proved, too:

   - Two names of a resolved file have one text and one context exactly when they mean the same variable, or are one name that nothing declares.
   - The resolved file is a readable file, and resolving it changes nothing.
   - The pass on it, and on the same script with any other contexts that tell variables apart as these do, gives the same refusal, or the same runs and mark
     and results that differ, for each name, by a one-to-one change of contexts alone.
   - Two files that none of 2 to 6 refuses, whose names pair one to one (`arguments` with itself alone), and which differ else in literals and in names of
     properties at most, are refused alike but for 10, and resolved to files that the pass treats alike. */
struct negbosun_written negbosun_resolve(const uint8_t *file, size_t file_length, uint8_t *result, size_t result_length, uint32_t *words,
                                         size_t word_count);

/* Prints a tree file's script as JavaScript from the beginning of `text`: tokens one blank apart, byte 10 instead behind each statement of the script, and no byte
   but that one and 32 to 126; there is no 0 behind it. Each `;` is written, arrow parameters stand in parentheses, properties have a colon, lists no last comma;
   strings stand in double quotes, with `\` before `"` and `\` alone; numbers are decimals without exponent, of the fewest digits behind the point with which one
   is read as the number, and of several the nearest. Parentheses stand where the tree has them (kind 41) and, round the smallest expression that helps, where the
   reading needs them.

   file, file_length    the tree file, in bytes
   text, text_length    room for the text, in bytes; NEGBOSUN_MOST_TEXT_BYTES always suffice, and so do, for a file, 32 for each node and each node's text twice
   words, word_count    as above

   Refusals 1 to 7, of which 1 asks for the words alone here, then 12, then 11. What is kept and what is 0 afterwards is as with negbosun_inline, `text` in place
   of `result`. No kind table is lent.

   Of this function it is proved, too, by the grammar of a Script in ECMA-262, without Annex B and early errors:

   - The text, cut into tokens as ECMA-262 cuts it, and in one way only, reads as the tree, contexts and parentheses passed over, and its parentheses in one
     way only.
   - No added pair of parentheses is needless: without it the text reads as another tree, or as none.
   - 12 is answered exactly where a name, a string or a number has no token as said above, or no text reads as the tree.

   What contexts a file has does not show: two variables of one name print alike. negbosun_resolve on the file tells whether its text means the same.
   A string that stands first in a script or in a function's body, alone as a statement, is a directive in the text, which the tree has not: `"use strict" ;` there makes
   the code strict. In parentheses (kind 41) it is a value. */
struct negbosun_written negbosun_text(const uint8_t *file, size_t file_length, uint8_t *text, size_t text_length, uint32_t *words, size_t word_count);

#ifdef __cplusplus
}
#endif

#endif
