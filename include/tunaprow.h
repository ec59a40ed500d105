/* Tunaprow as a library: sumcheck jobs are audited from memory to memory.
 *
 * The reply to a job is the one that the program `sumcheck` gives: the same status and, byte for byte, the same text.
 * docs/FORMATS.md says what jobs and replies are, and docs/FROM_RUST.md has a package for Rust over this header.
 *
 * Proved, in crates/sumcheck_c: for all bytes of a word, of a job and of `out`, and for all numbers of a table, the
 * status and what is left are those that stand below, and no call reads or writes memory beyond what it is handed or
 * asks for.
 * Not proved: what stands on this side of the border. No compiler holds these declarations against the library, and
 * nothing checks that a caller keeps what a call wants of it; a caller that does not may get any behaviour.
 *
 * To link: libsumcheck_c.a, which `rt lib` makes in crates/sumcheck_c/out, and the three functions of the heap at the
 * end of this file, which tunaprow_heap.c has over malloc.
 */
#ifndef TUNAPROW_H
#define TUNAPROW_H

#include <stdbool.h>
#include <stddef.h>
#include <stdint.h>

#ifdef __cplusplus
extern "C" {
#endif

/* What a call ends with. There is no other status. */
enum tunaprow_status {
    TUNAPROW_HOLDS = 0,         /* a report that holds, or what is told without a verdict */
    TUNAPROW_NOT_PROVED = 1,    /* a report that is refuted, or that names a lucky challenge */
    TUNAPROW_USAGE = 2,         /* the word is no command, or no job can be made of these numbers */
    TUNAPROW_JOB_REFUSED = 3,   /* the text says which member, shape or statement */
    TUNAPROW_PROOF_REFUSED = 4, /* the job's proof does not fit it, or a witness fails */
    TUNAPROW_NO_WITNESS = 5,    /* no element passes the test of a round that was to be built */
    TUNAPROW_SHORT = 7,         /* `out` is shorter than the text */
    TUNAPROW_OUT_OF_MEMORY = 8  /* the heap refused a request */
};

/* Replies to a job.
 *
 * `word` names the command: audit, product, veil, explain, matmul, circuit or openings, without a zero byte after it.
 * `job` has the bytes of the job, a JSON text. At most 67,108,864 of them are read: a longer job is refused.
 *
 * What is left:
 *  - status 0 to 5: the whole text stands at the front of `out`. `*written` and `*needed` are both its length in
 *    bytes. It ends with a line feed, and no zero byte follows it.
 *  - TUNAPROW_SHORT: `*needed` is the length of the whole text, which is more than `out_length`; `out` is filled with
 *    the first bytes of the text, and `*written` is `out_length`. The same call with `*needed` bytes has room. It does
 *    all the work again, so hand a call room at once: 64 KiB hold most texts.
 *  - TUNAPROW_OUT_OF_MEMORY: `out` is as it was, and `*written` and `*needed` are 0.
 * The bytes of `out` after the first `*written` are as they were. The word and the job are only read. Nothing is kept:
 * no call knows of another one, and at its end, as the tests show, all blocks that it asked for are given back.
 *
 * What a call wants:
 *  - no address is null, and each is valid for its length, also where that is 0. For an empty `out`, pass the address
 *    of any byte.
 *  - no length is above PTRDIFF_MAX.
 *  - `out`, `*written` and `*needed` overlap neither one another nor the word and the job, and no other thread uses
 *    them, or writes the word or the job, during the call.
 *  - the bytes of `out` have been written before, with any values (`calloc` does).
 *  - the three functions of the heap, below, do what is said there.
 *  - it is not called from a signal handler, nor from the forked child of a process with threads.
 *  - there is stack: 256 KiB are enough for the ready jobs and for the most deeply nested text, which the tests show and
 *    nothing proves.
 * Several threads may call at the same time, each with memory of its own, where the heap's functions allow it. */
uint8_t tunaprow_reply(const uint8_t *word, size_t word_length, const uint8_t *job, size_t job_length, uint8_t *out,
                       size_t out_length, size_t *written, size_t *needed);

/* Makes a job of 2^variables entries out of a number, builds its rounds, and reports on them in short.
 *
 * `variables` is 1 to 24, `number` at most 65,536, and `strategy` one of plain, represented and small-value, without a
 * zero byte after it; else the status is TUNAPROW_USAGE. The other statuses are 0, TUNAPROW_SHORT and
 * TUNAPROW_OUT_OF_MEMORY. What is left, and what the call wants, is as above. */
uint8_t tunaprow_make(uint64_t variables, uint64_t number, const uint8_t *strategy, size_t strategy_length,
                      uint8_t *out, size_t out_length, size_t *written, size_t *needed);

/* ---- Tables in memory
 *
 * The two calls below take the numbers of a job with claims on values at points, over the integers modulo 65537, and
 * leave those of its report: no text is written or read. The answer is that of `audit` to the job with these numbers,
 * and the status is the same. A job has at most 4,096 claims, and its text 67,108,864 bytes; of a table there may be
 * more. */

/* How the rounds of a table are played. */
struct tunaprow_terms {
    size_t variables;  /* the table has 2^variables entries, and a point so many coordinates; at most 24 */
    size_t bits;       /* the difficulty of each round's test, at most 16, or 0 for no test */
    uint32_t batching; /* the element whose powers batch the claims */
    bool suffix;       /* a round binds the last variable that is left, else the first */
    bool coefficients; /* the table's entries are coefficients, in prefix order alone, else values */
    bool hash;         /* challenges are drawn from digests of what was observed, else from a script */
};

/* What a round sends. */
struct tunaprow_round {
    uint32_t first;   /* the value of its polynomial at 0, with coefficients in the table that at 1 */
    uint32_t leading; /* the leading coefficient, of the square of the variable */
};

/* What rounds are found to be. */
enum tunaprow_verdict {
    TUNAPROW_VERDICT_HOLDS = 0,       /* the claims are true, and the rounds prove them */
    TUNAPROW_VERDICT_REFUTED = 1,     /* the rounds do not prove them; they may be true or false */
    TUNAPROW_VERDICT_LUCKY_BATCH = 2, /* a claim is false, and the batching challenge let it through */
    TUNAPROW_VERDICT_LUCKY_ROUND = 3  /* a claim is false, and the challenge of a round let it through */
};

struct tunaprow_found {
    uint32_t verdict;    /* one of these */
    size_t round;        /* the lucky round, counted from 0, and else 0 */
    uint64_t vanishing;  /* at how many elements the polynomial of a lucky challenge vanishes, and else 0 */
    size_t coefficients; /* how many coefficients it has, and else 0: 3 of a round, one for each claim of a batch */
};

/* The figures of a report. */
struct tunaprow_figures {
    uint32_t claim;    /* the batched claim */
    uint32_t residual; /* what the rounds leave of it */
    uint32_t eval;     /* the value of the table at the challenges */
    uint32_t weight;   /* the value of the batched weights there */
    struct tunaprow_found found;
};

/* Checks rounds that are handed in.
 *
 *  - `table` has an entry for each row, row 0 first; the first variable belongs to the highest bit of a row's number.
 *  - `points` has a point for each of the `values`, which are claimed there: one after another, each of
 *    `terms->variables` coordinates, that of the highest bit first.
 *  - `draws` has the challenges in drawing order; past its end they are 0. With `terms->hash` it is not read. With a
 *    script no witness passes a test.
 *  - `rounds` has a round for each variable, and `witnesses` a witness for each of them where there is a difficulty,
 *    and none where there is not.
 *
 * Lengths are numbers of elements. Each number is below 65537.
 *
 * What is left:
 *  - TUNAPROW_HOLDS and TUNAPROW_NOT_PROVED: `*figures` has the report's figures. The challenges stand at the front of
 *    `challenges`, one for each variable, and the coefficients of a lucky challenge's polynomial, the constant first,
 *    at the front of `polynomial`: as many of each as there is room for. What follows them is as it was.
 *  - TUNAPROW_JOB_REFUSED: a number is 65537 or more, the points are not one for each value, or the job's shape is
 *    refused; TUNAPROW_PROOF_REFUSED: there are not as many rounds or witnesses as there have to be, or a witness
 *    fails; TUNAPROW_OUT_OF_MEMORY. All is as it was. tunaprow_reply tells the cause of a refusal, of the same job.
 *
 * What the call wants is what tunaprow_reply wants, of all its memory: that which it may write overlaps nothing else,
 * has been written before, and so has each member of `*terms` and `*figures`; a `bool` is true or false; and each
 * address is aligned as its type is, that of an empty list too. */
uint8_t tunaprow_check_65537(const struct tunaprow_terms *terms, const uint32_t *table, size_t table_length,
                             const uint32_t *points, size_t points_length, const uint32_t *values,
                             size_t values_length, const uint32_t *draws, size_t draws_length,
                             const struct tunaprow_round *rounds, size_t rounds_length, const uint32_t *witnesses,
                             size_t witnesses_length, struct tunaprow_figures *figures, uint32_t *challenges,
                             size_t challenges_length, uint32_t *polynomial, size_t polynomial_length);

/* Builds rounds, by the plain strategy.
 *
 * All is as above, but that rounds are left and not read: with TUNAPROW_HOLDS, which a build of true claims ends with,
 * they stand at the front of `rounds`, one for each variable, and at a difficulty their witnesses at the front of
 * `witnesses`, as many as there is room for. A build of a false claim is TUNAPROW_JOB_REFUSED. TUNAPROW_NO_WITNESS: no
 * element passes the test of a round, and all is as it was. */
uint8_t tunaprow_build_65537(const struct tunaprow_terms *terms, const uint32_t *table, size_t table_length,
                             const uint32_t *points, size_t points_length, const uint32_t *values,
                             size_t values_length, const uint32_t *draws, size_t draws_length,
                             struct tunaprow_round *rounds, size_t rounds_length, uint32_t *witnesses,
                             size_t witnesses_length, struct tunaprow_figures *figures, uint32_t *challenges,
                             size_t challenges_length, uint32_t *polynomial, size_t polynomial_length);

/* ---- What the program gives the library: a heap.
 *
 * Define these three once in each program that links the library, or add tunaprow_heap.c, which does it over malloc,
 * realloc and free. The library calls them from within the calls above and at no other time, in the thread of the call.
 * Any request may be refused: the call then ends with TUNAPROW_OUT_OF_MEMORY, or, where it can do without, answers as
 * ever. */

/* Whether there is memory, and where. Where there is none `at` is not read, but shall not be null. */
struct tunaprow_block {
    bool found;
    void *at;
};

/* A new block of `size` bytes whose address is a multiple of `align`, a power of two up to 16. Where `size` is 0, a
 * block of `align` bytes. It overlaps no block that was not given back. */
struct tunaprow_block rattle_alloc(size_t size, size_t align);

/* The block at `at`, grown or shrunk to `size` bytes (to `align` where `size` is 0), maybe at another address: a
 * multiple of `align` too. Its first `kept` bytes are as they were. Where this is refused, the block is as it was. */
struct tunaprow_block rattle_realloc(void *at, size_t kept, size_t size, size_t align);

/* Takes a block back that one of the two gave. It is never handed a null address. */
void rattle_dealloc(void *at);

#ifdef __cplusplus
}
#endif

#endif
