"""A preloaded C library that counts a program's memory requests, and refuses one of them, some, or one and all later ones.

It can also make one of the program's reads or writes fail, and limit the bytes of each.
"""

import os
import re
import subprocess
import sys

# The program ends with `_exit`, or where its `main` ends, and the library prints its counts before that.
REFUSES_ONE = r"""
#define _GNU_SOURCE
#include <dlfcn.h>
#include <errno.h>
#include <pthread.h>
#include <stdio.h>
#include <stdlib.h>
#include <string.h>
#include <sys/syscall.h>
#include <unistd.h>

static long requests, refused, first, last;

/* With MARKED, the program marks its calls by requests of these sizes, and other requests aren't counted. A mark ends or begins a call:
   one that may be out of memory, or one that may make no request, and each of the latter's requests is refused and counts as refused. */
#define SOME_REFUSED (1L << 47)
#define NONE_ALLOWED (1L << 48)
static int is_marked;
static long within, marks;

/* The call that fails: its name, its number and its error. Each call takes at most `most` bytes, if that isn't 0. */
static char failing[16];
static long calls, failing_at, most;
static int failing_by;

__attribute__((constructor)) static void begin(void) {
    const char *given = getenv("REFUSED"), *fault = getenv("FAULT"), *few = getenv("MOST");
    if (!given || sscanf(given, "%ld %ld", &first, &last) != 2)
        first = 1, last = 0;
    if (fault)
        sscanf(fault, "%15s %ld %d", failing, &failing_at, &failing_by);
    most = few ? atol(few) : 0;
    is_marked = getenv("MARKED") != NULL;
    requests = 0;
}

static int refuse(void) {
    errno = ENOMEM;
    return 1;
}

static int is_mark(long size) {
    if (size != SOME_REFUSED && size != NONE_ALLOWED)
        return 0;
    within = within ? 0 : size;
    marks++;
    return 1;
}

static int is_refused(size_t size) {
    if (is_marked && is_mark(size))
        return refuse();
    if (is_marked && within != SOME_REFUSED && within != NONE_ALLOWED)
        return 0;
    long own = __sync_add_and_fetch(&requests, 1);
    if (within != NONE_ALLOWED && (own < first || own > last))
        return 0;
    refused = 1;
    return refuse();
}

void *malloc(size_t size) {
    static void *(*next)(size_t);
    if (!next)
        next = dlsym(RTLD_NEXT, "malloc");
    return is_refused(size) ? NULL : next(size);
}

void *realloc(void *old, size_t size) {
    static void *(*next)(void *, size_t);
    if (!next)
        next = dlsym(RTLD_NEXT, "realloc");
    return is_refused(size) ? NULL : next(old, size);
}

static int fails(const char *call) {
    if (strcmp(call, failing) || __sync_add_and_fetch(&calls, 1) != failing_at)
        return 0;
    errno = failing_by;
    return 1;
}

#define WITH_FEW(size) (most && (size_t)most < (size) ? (size_t)most : (size))

ssize_t read(int file, void *bytes, size_t size) {
    return fails(file ? "read_file" : "read") ? -1 : syscall(SYS_read, file, bytes, file ? size : WITH_FEW(size));
}

ssize_t write(int file, const void *bytes, size_t size) {
    return file == 1 && fails("write") ? -1 : syscall(SYS_write, file, bytes, file == 1 ? WITH_FEW(size) : size);
}

ssize_t recv(int socket, void *bytes, size_t size, int flags) {
    return fails("recv") ? -1 : syscall(SYS_recvfrom, socket, bytes, WITH_FEW(size), flags, NULL, NULL);
}

ssize_t send(int socket, const void *bytes, size_t size, int flags) {
    return fails("send") ? -1 : syscall(SYS_sendto, socket, bytes, WITH_FEW(size), flags, NULL, 0);
}

int shutdown(int socket, int how) {
    return fails("shutdown") ? -1 : syscall(SYS_shutdown, socket, how);
}

int pthread_create(pthread_t *thread, const pthread_attr_t *how, void *(*run)(void *), void *with) {
    static int (*next)(pthread_t *, const pthread_attr_t *, void *(*)(void *), void *);
    if (!next)
        next = dlsym(RTLD_NEXT, "pthread_create");
    return fails("thread") ? failing_by : next(thread, how, run, with);
}

static int print_counts(void) {
    char text[120];
    int length = snprintf(text, sizeof text, "requests %ld refused %ld calls %ld\n", requests, refused, is_marked ? marks / 2 : calls);
    return write(2, text, length) == length;
}

__attribute__((destructor)) static void end(void) {
    print_counts();
}

void _exit(int status) {
    int has_printed = print_counts();
    for (;;)
        syscall(SYS_exit_group, has_printed ? status : 99);
}
"""


def shim(folder):
    """Builds the library in this folder, and returns its path."""
    source, library = os.path.join(folder, "refuses_one.c"), os.path.join(folder, "refuses_one.so")
    with open(source, "w", encoding="utf-8") as file:
        file.write(REFUSES_ONE)
    subprocess.run(["gcc", "-O1", "-shared", "-fPIC", "-o", library, source, "-ldl"], check=True)
    return library


COUNTS = re.compile(rb"requests (\d+) refused (\d) calls (\d+)\n")


def without(error):
    """Standard error without the library's line, and the numbers of that line: requests, whether one was refused, and calls."""
    counts = COUNTS.search(error)
    if not counts:
        sys.exit("refusals: the requests weren't counted: %s" % error)
    return error[: counts.start()] + error[counts.end() :], int(counts[1]), counts[2] == b"1", int(counts[3])


# More requests than a program makes.
ALL = 2**62


def run(library, words, refused=0, many=1, **how):
    """Runs a command, and refuses as many requests, the first of which has this number; none if the number is 0.

    Returns the ended process, the number of its requests, and whether one was refused. The library's line isn't in its standard error."""
    given = dict(os.environ, LD_PRELOAD=library, REFUSED=refusal(refused, many))
    done = subprocess.run(words, env=given, capture_output=True, timeout=60, **how)
    done.stderr, requests, was_refused, _ = without(done.stderr)
    return done, requests, was_refused


def run_marked(library, words, refused=0, many=1):
    """Runs a command as `run` does, and counts and refuses only requests within the calls that it marks.

    A request of a call that takes no memory is always refused. Returns also the number of the marked calls. Nothing is counted if the
    command is ended by a signal."""
    given = dict(os.environ, LD_PRELOAD=library, MARKED="1", REFUSED=refusal(refused, many))
    done = subprocess.run(words, env=given, capture_output=True, timeout=60)
    if done.returncode < 0:
        return done, 0, False, 0
    done.stderr, requests, was_refused, calls = without(done.stderr)
    return done, requests, was_refused, calls


def refusal(refused, many=1):
    """What the library has to know to refuse as many requests from this number on."""
    return "%d %d" % (refused, refused + many - 1) if refused else ""


def faulty(library, words, call, number, by, most=0, **how):
    """Runs a command whose call of this name and number fails with the error `by`. Each call takes at most `most` bytes, if that isn't 0.

    Returns the ended process and the number of its calls of that name. A call is `read` or `write` (of standard input or output), `recv`,
    `send`, `shutdown`, or `read_file` (a read of another file)."""
    given = dict(os.environ, LD_PRELOAD=library, FAULT="%s %d %d" % (call, number, by), MOST=str(most))
    done = subprocess.run(words, env=given, capture_output=True, timeout=60, **how)
    done.stderr, _, _, calls = without(done.stderr)
    return done, calls
