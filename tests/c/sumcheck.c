/* The program `sumcheck` once more, in C over the library:
 *   sumcheck WORD < JOB
 *   sumcheck make N NUMBER STRATEGY
 * It writes the text to standard output, and ends with the status. */
#include "tunaprow.h"

#include <stdio.h>
#include <stdlib.h>
#include <string.h>

struct bytes {
    uint8_t *at;
    size_t length;
};

static struct bytes with_room(struct bytes had, size_t length) {
    struct bytes it = {realloc(had.at, length), length};
    if (it.at == NULL) {
        exit(TUNAPROW_OUT_OF_MEMORY);
    }
    return it;
}

static struct bytes read_all(FILE *from) {
    struct bytes all = with_room((struct bytes){NULL, 0}, 65536);
    size_t had = 0;
    size_t got;
    while ((got = fread(all.at + had, 1, all.length - had, from)) > 0) {
        had += got;
        if (had == all.length) {
            all = with_room(all, 2 * all.length);
        }
    }
    all.length = had;
    return all;
}

/* The call that the words of the command line ask for. */
static uint8_t call(char **words, struct bytes job, struct bytes out, size_t *written, size_t *needed) {
    const uint8_t *word = (const uint8_t *)words[1];
    if (words[2] == NULL) {
        return tunaprow_reply(word, strlen(words[1]), job.at, job.length, out.at, out.length, written, needed);
    }
    return tunaprow_make(strtoull(words[2], NULL, 10), strtoull(words[3], NULL, 10), (const uint8_t *)words[4],
                         strlen(words[4]), out.at, out.length, written, needed);
}

int main(int count, char **words) {
    if (count != 2 && (count != 5 || strcmp(words[1], "make") != 0)) {
        fputs("usage\n", stdout);
        return TUNAPROW_USAGE;
    }
    struct bytes job = count == 2 ? read_all(stdin) : with_room((struct bytes){NULL, 0}, 1);
    struct bytes out = with_room((struct bytes){NULL, 0}, 256);
    size_t written;
    size_t needed;
    memset(out.at, 0, out.length);
    uint8_t status = call(words, job, out, &written, &needed);
    if (status == TUNAPROW_SHORT) {
        out = with_room(out, needed);
        memset(out.at, 0, out.length);
        status = call(words, job, out, &written, &needed);
    }
    fwrite(out.at, 1, written, stdout);
    free(job.at);
    free(out.at);
    return status;
}
