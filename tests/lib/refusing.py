"""Refuses allocations of a program, by a library in front of the C library. The machine's C compiler builds it: `$CC`, or `cc` if that
is not set."""

import os
import shlex
import subprocess

SECONDS = 60  # until the script gives up on a run
TOLD = b"refused\n"  # its line on standard error for each allocation that it refuses

SOURCE = r"""
typedef unsigned long size_t;
void *__libc_malloc(size_t);
void *__libc_realloc(void *, size_t);
char *getenv(const char *);
long atol(const char *);
long write(int, const void *, size_t);

static long made;

static int is_refused(size_t size) {
    const char *first = getenv("REFUSED_FIRST"), *count = getenv("REFUSED_COUNT"), *least = getenv("REFUSED_LEAST");
    if (!first || !count || (least && (long)size < atol(least)))
        return 0;
    long past = ++made - atol(first);
    if (past < 0 || past >= atol(count))
        return 0;
    write(2, "refused\n", 8);
    return 1;
}

void *malloc(size_t size) { return is_refused(size) ? 0 : __libc_malloc(size); }
void *realloc(void *block, size_t size) { return is_refused(size) ? 0 : __libc_realloc(block, size); }
"""


def build(folder):
    """Builds the library, and returns its path."""
    source, library = f"{folder}/refuses.c", f"{folder}/refuses.so"
    with open(source, "w", encoding="ascii") as file:
        file.write(SOURCE)
    compiler = shlex.split(os.environ.get("CC") or "cc")
    subprocess.run([*compiler, "-shared", "-fPIC", "-O1", "-ffreestanding", source, "-o", library], check=True)
    return library


def run(library, words, first, count, least=0, **how):
    """Runs a program with this many allocations refused from the first on, of those that ask for at least this many bytes. Returns the
    run, whose errors are the program's own, and how many were refused."""
    names = {"LD_PRELOAD": library, "REFUSED_FIRST": str(first), "REFUSED_COUNT": str(count), "REFUSED_LEAST": str(least)}
    streams = {"stdout": subprocess.PIPE, "stderr": subprocess.PIPE, "close_fds": False}
    ran = subprocess.run(words, env={**os.environ, **names}, timeout=SECONDS, **streams, **how)
    ran.stderr, refused = ran.stderr.replace(TOLD, b""), ran.stderr.count(TOLD)
    return ran, refused
