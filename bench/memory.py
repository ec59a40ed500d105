#!/usr/bin/env python3
"""Refuses a built program one request for memory at a time, and holds every answer against what it may be then.

usage: bench/memory.py PROGRAM [JOB ..]      (JOB: a file of jobs/; without one, every ready job, and one of `make`)

A library made here by `cc`, and loaded before the C library, counts the requests (`malloc` and `realloc`) and answers one of them that
there is no memory. For each job the requests of a whole run are counted, and then one run is made for each of them, in which that
one is refused. It has to end with status 8 and nothing written, or with the job's own status and text, where the request was not
the program's or it went on without it; or with status 9 and nothing written, where the words of the command line were not read yet.
Nothing else may be written, and no run may end by a signal. How many runs were made, and how they ended, is shown.
"""
import collections, glob, os, subprocess, sys, tempfile

from fuzz import command_of, ready
from measured import wants

LIBRARY = r"""
#define _GNU_SOURCE
#include <dlfcn.h>
#include <fcntl.h>
#include <stdio.h>
#include <stdlib.h>
#include <unistd.h>

static unsigned long requests, refused;
static void *(*next_malloc)(size_t);
static void *(*next_realloc)(void *, size_t);

__attribute__((constructor)) static void begin(void) {
    const char *word = getenv("REFUSED_REQUEST");
    next_malloc = dlsym(RTLD_NEXT, "malloc");
    next_realloc = dlsym(RTLD_NEXT, "realloc");
    refused = word ? strtoul(word, NULL, 10) : 0;
    requests = 0;
}

static int is_refused(void) { return next_malloc && ++requests == refused; }

void *malloc(size_t size) {
    if (!next_malloc) next_malloc = dlsym(RTLD_NEXT, "malloc");
    return is_refused() ? NULL : next_malloc(size);
}

void *realloc(void *old, size_t size) {
    if (!next_realloc) next_realloc = dlsym(RTLD_NEXT, "realloc");
    return is_refused() ? NULL : next_realloc(old, size);
}

__attribute__((destructor)) static void end(void) {
    const char *path = getenv("REQUESTS_FILE");
    char text[32];
    int file = path ? open(path, O_WRONLY | O_CREAT | O_TRUNC, 0600) : -1;
    if (file >= 0) {
        int length = snprintf(text, sizeof text, "%lu", requests);
        if (write(file, text, length) != length) _exit(99);
        close(file);
    }
}
"""


class Refused:
    """Runs a program whose requests are counted, and of which one may be refused."""

    def __init__(self, program, folder):
        source, self.library, self.counted = (os.path.join(folder, name) for name in ("refused.c", "refused.so", "counted"))
        with open(source, "w") as f:
            f.write(LIBRARY)
        subprocess.run(["cc", "-O1", "-shared", "-fPIC", "-o", self.library, source, "-ldl"], check=True)
        self.program = program

    def run(self, words, data, request):
        """The status and the text of a run, of which this request is refused; 0: none."""
        environment = os.environ | {"LD_PRELOAD": self.library, "REFUSED_REQUEST": str(request), "REQUESTS_FILE": self.counted}
        ran = subprocess.run([self.program, *words], input=data, capture_output=True, env=environment, timeout=120)
        return ran.returncode, ran.stdout, ran.stderr

    def requests(self):
        """How many there were in the last run."""
        with open(self.counted) as f:
            return int(f.read())


def hold(refused, words, data, endings):
    """Refuses each request of a run in turn; a finding ends all."""
    own = refused.run(words, data, 0)
    count = refused.requests()
    for request in range(1, count + 1):
        told = refused.run(words, data, request)
        if told[2] or told not in (own, (8, b"", b""), (9, b"", b"")):
            sys.exit(f"{' '.join(words)}: request {request} of {count} is refused, and the answer is {told}\n{data[:500]!r}")
        endings["its own answer" if told == own else f"status {told[0]}"] += 1
    return count


def main():
    if len(sys.argv) < 2 or sys.argv[1].startswith("-"):
        sys.exit(__doc__)
    program, files = os.path.abspath(sys.argv[1]), sys.argv[2:] or ready()
    wants([program])
    runs = [([command_of(path)], path) for path in files] + ([] if sys.argv[2:] else [(["make", "6", "7", "represented"], os.devnull)])
    endings = collections.Counter()
    with tempfile.TemporaryDirectory() as folder:
        refused = Refused(program, folder)
        for words, path in runs:
            with open(path, "rb") as f:
                hold(refused, words, f.read(), endings)
    print(f"{len(runs)} jobs, {sum(endings.values())} requests refused, one at a time")
    for ending, number in endings.most_common():
        print(f"{number:8} {ending}")


if __name__ == "__main__":
    main()
