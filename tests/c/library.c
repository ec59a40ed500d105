/* Calls the library with each ready job, and holds what is left against the job's text and status.
 *
 * Standard input has a line for each job: the command's word, the status, the job's file and the text's. After them come
 * words that are no command, and jobs that are none. All calls are made on a stack of 256 KiB. Each job is answered into room for the text and more, into exactly its length and into less, and with a heap that refuses one
 * request: each of the first 64, and then about one in eight. A call that can do without the request answers as ever,
 * and all others end with want of memory. The heap is this file's own, and counts the blocks. */
#include "tunaprow.h"

#include <pthread.h>
#include <stdio.h>
#include <stdlib.h>
#include <string.h>

enum { GUARD = 64, FILL = 0xA5, EACH = 64, STACK = 1 << 18, LONGEST = 67108864, DEEPEST = 126 };

/* ---- the heap */

static size_t blocks;
static size_t requests;
static size_t refused; /* the request that is refused, counted from 1; 0 for none */
static size_t told;    /* the calls that ended with want of memory */
static unsigned char nothing;

static struct tunaprow_block block_at(void *at) {
    struct tunaprow_block block = {at != NULL, at != NULL ? at : &nothing};
    return block;
}

struct tunaprow_block rattle_alloc(size_t size, size_t align) {
    if (++requests == refused) {
        return block_at(NULL);
    }
    blocks++;
    return block_at(malloc(size != 0 ? size : align));
}

struct tunaprow_block rattle_realloc(void *at, size_t kept, size_t size, size_t align) {
    (void)kept;
    return block_at(++requests == refused ? NULL : realloc(at, size != 0 ? size : align));
}

void rattle_dealloc(void *at) {
    blocks--;
    free(at);
}

/* ---- a job */

struct bytes {
    uint8_t *at;
    size_t length;
};

struct job {
    char file[256];
    struct bytes word;
    struct bytes job;
    struct bytes text;
    unsigned status;
};

static void fail(const struct job *job, const char *what, size_t number) {
    printf("library: %s: %s (%zu)\n", job->file, what, number);
    exit(1);
}

static struct bytes read_file(const char *name) {
    FILE *file = fopen(name, "rb");
    struct bytes bytes = {NULL, 0};
    if (file == NULL || fseek(file, 0, SEEK_END) != 0) {
        perror(name);
        exit(1);
    }
    bytes.length = (size_t)ftell(file);
    bytes.at = malloc(bytes.length + 1);
    rewind(file);
    if (bytes.at == NULL || fread(bytes.at, 1, bytes.length, file) != bytes.length) {
        perror(name);
        exit(1);
    }
    fclose(file);
    return bytes;
}

/* ---- calls */

/* All bytes from one index to another are those that stood there before. */
static int is_untouched(const uint8_t *out, size_t from, size_t to) {
    for (size_t i = from; i < to; i++) {
        if (out[i] != FILL) {
            return 0;
        }
    }
    return 1;
}

/* Answers the job into so much room; the memory that stands around `out` is looked at too. */
static void call(const struct job *job, size_t room, size_t refuse) {
    size_t length = job->text.length;
    size_t all = room + 2 * GUARD;
    uint8_t *memory = malloc(all);
    uint8_t *out = memory + GUARD;
    size_t written = 1;
    size_t needed = 1;
    memset(memory, FILL, all);
    requests = 0;
    refused = refuse;
    uint8_t status = tunaprow_reply(job->word.at, job->word.length, job->job.at, job->job.length, out, room, &written,
                                    &needed);
    if (blocks != 0) {
        fail(job, "blocks were not given back", blocks);
    }
    if (refuse != 0 && status == TUNAPROW_OUT_OF_MEMORY) {
        if (requests < refuse || written != 0 || needed != 0) {
            fail(job, "want of memory is told wrongly", refuse);
        }
        told++;
    } else if (room < length) {
        if (status != TUNAPROW_SHORT || written != room || needed != length) {
            fail(job, "a short output is not told", room);
        }
    } else if (status != job->status || written != length || needed != length) {
        fail(job, "another status or length", room);
    }
    if (memcmp(out, job->text.at, written) != 0) {
        fail(job, "another text", room);
    }
    if (!is_untouched(memory, 0, GUARD) || !is_untouched(memory, GUARD + written, all)) {
        fail(job, "a byte outside of the text was written", room);
    }
    free(memory);
}

static void check(const struct job *job) {
    size_t length = job->text.length;
    size_t rooms[] = {length + 100, length, length - 1, length / 2, 1, 0};
    for (size_t i = 0; i < sizeof rooms / sizeof *rooms; i++) {
        call(job, rooms[i], 0);
    }
    size_t all = requests;
    size_t tried = 0;
    told = 0;
    for (size_t refuse = 1; refuse <= all; refuse += refuse < EACH ? 1 : refuse / 8) {
        call(job, length, refuse);
        tried++;
    }
    if (told == 0 || tried - told > 4) {
        fail(job, "refused requests that are not told", tried - told);
    }
}

/* ---- all jobs */

static struct bytes bytes_of(const char *text) {
    struct bytes bytes = {(uint8_t *)text, strlen(text)};
    return bytes;
}

static struct bytes repeated(char what, size_t count) {
    struct bytes bytes = {malloc(count), count};
    if (bytes.at == NULL) {
        exit(1);
    }
    memset(bytes.at, what, count);
    return bytes;
}

/* The jobs that standard input lists. */
static size_t check_ready(void) {
    char word[16];
    char text[256];
    struct job job;
    size_t count = 0;
    while (scanf("%15s %u %255s %255s", word, &job.status, job.file, text) == 4) {
        job.word = bytes_of(word);
        job.job = read_file(job.file);
        job.text = read_file(text);
        check(&job);
        free(job.job.at);
        free(job.text.at);
        count++;
    }
    return count;
}

static void check_other(const char *name, struct bytes word, struct bytes bytes, unsigned status, const char *text) {
    struct job job = {"", word, bytes, bytes_of(text), status};
    snprintf(job.file, sizeof job.file, "%s", name);
    check(&job);
}

/* Words that are no command, and jobs that are none. */
static void check_others(void) {
    struct bytes none = bytes_of("");
    struct bytes audit = bytes_of("audit");
    struct bytes zero = {(uint8_t *)"audit", 6};
    struct bytes deep = repeated('[', 2 * DEEPEST);
    struct bytes longest = repeated(' ', LONGEST);
    struct bytes too_long = repeated(' ', LONGEST + 1);
    memset(deep.at + DEEPEST, ']', DEEPEST);
    check_other("another word", bytes_of("now"), none, TUNAPROW_USAGE, "usage\n");
    check_other("an empty word", none, none, TUNAPROW_USAGE, "usage\n");
    check_other("a word that needs others", bytes_of("make"), none, TUNAPROW_USAGE, "usage\n");
    check_other("a word with a zero byte", zero, none, TUNAPROW_USAGE, "usage\n");
    check_other("a word that is no text", bytes_of("\xff"), none, TUNAPROW_USAGE, "usage\n");
    check_other("no job", audit, none, TUNAPROW_JOB_REFUSED, "refused bad-json\n");
    check_other("a deep job", audit, deep, TUNAPROW_JOB_REFUSED, "refused bad-job job\n");
    check_other("the longest job", audit, longest, TUNAPROW_JOB_REFUSED, "refused bad-json\n");
    check_other("a longer job", audit, too_long, TUNAPROW_JOB_REFUSED, "refused too-long\n");
    free(deep.at);
    free(longest.at);
    free(too_long.at);
}

static void *check_all(void *count) {
    *(size_t *)count = check_ready();
    check_others();
    return NULL;
}

int main(void) {
    pthread_attr_t small;
    pthread_t thread;
    size_t count = 0;
    if (pthread_attr_init(&small) != 0 || pthread_attr_setstacksize(&small, STACK) != 0 ||
        pthread_create(&thread, &small, check_all, &count) != 0 || pthread_join(thread, NULL) != 0) {
        puts("library: no thread");
        return 1;
    }
    printf("library: %zu jobs\n", count);
    return count == 0;
}
