"""Runs a program with less memory than it asks for: one allocation refused by its number, or all that would pass a room in bytes.

Needs a C compiler as `cc`. A library of a few lines stands before the C library's allocations (LD_PRELOAD); it counts the bytes
that are held, and tells at the end how many allocations there were, how many bytes were held at most, and how many were refused."""
from __future__ import annotations

import os
import subprocess
import tempfile
from dataclasses import dataclass
from pathlib import Path

from model.slow_audit import verdict

MISSING = 9  # the status with which the audit tells that calls are missing of a transcript that is legal so far

SHIM = r"""
#define _GNU_SOURCE
#include <dlfcn.h>
#include <errno.h>
#include <malloc.h>
#include <stddef.h>
#include <stdio.h>
#include <stdlib.h>
#include <string.h>
#include <sys/syscall.h>
#include <unistd.h>

static long made, held, most, refusals, number, room, told = -1;
static void *(*next_malloc)(size_t), *(*next_calloc)(size_t, size_t), *(*next_realloc)(void *, size_t);
static void *(*next_aligned)(size_t, size_t);
static void (*next_free)(void *);
static char early[65536]; /* what dlsym asks for while it looks for the names */
static size_t used;

static long of_environment(const char *name) {
    const char *value = getenv(name);
    return value ? atol(value) : 0;
}

static void look(void) {
    next_calloc = dlsym(RTLD_NEXT, "calloc");
    next_malloc = dlsym(RTLD_NEXT, "malloc");
    next_realloc = dlsym(RTLD_NEXT, "realloc");
    next_aligned = dlsym(RTLD_NEXT, "aligned_alloc");
    next_free = dlsym(RTLD_NEXT, "free");
}

__attribute__((constructor)) static void begin(void) {
    if (!next_free) look();
    number = of_environment("RVDYN_REFUSED");
    room = of_environment("RVDYN_ROOM");
    told = of_environment("RVDYN_TOLD");
    made = held = most = refusals = 0;
}

/* Tells once, at whichever end comes: a program with threads ends by _exit, which runs no destructor. */
static void tell(void) {
    char line[100];
    int size = snprintf(line, sizeof line, "%ld %ld %ld\n", made, most, refusals);
    long to = told;
    told = -1;
    if (to > 0 && write(to, line, size) < 0) syscall(SYS_exit_group, 120);
}

__attribute__((destructor)) static void end(void) { tell(); }

void _exit(int status) {
    tell();
    for (;;) syscall(SYS_exit_group, status);
}

static int is_early(void *place) { return (char *)place >= early && (char *)place < early + sizeof early; }

static void *early_room(size_t size) {
    used = (used + 15) / 16 * 16;
    if (used + size > sizeof early) return NULL;
    used += size;
    return early + used - size;
}

/* Whether this allocation is to be refused. */
static int refused(size_t size) {
    made++;
    if (made == number || (room && held + (long)size > room)) {
        refusals++;
        errno = ENOMEM;
        return 1;
    }
    return 0;
}

static void *taken(void *place) {
    if (place) held += malloc_usable_size(place);
    if (held > most) most = held;
    return place;
}

void *malloc(size_t size) {
    if (!next_malloc) {
        if (used) return early_room(size);
        used = 1;
        look();
    }
    return refused(size) ? NULL : taken(next_malloc(size));
}

void *calloc(size_t count, size_t size) {
    if (!next_calloc) {
        if (used) return early_room(count * size);
        used = 1;
        look();
    }
    return refused(count * size) ? NULL : taken(next_calloc(count, size));
}

void *realloc(void *old, size_t size) {
    if (!old) return malloc(size);
    if (is_early(old)) {
        void *place = malloc(size);
        if (place) memcpy(place, old, size < (size_t)(early + sizeof early - (char *)old) ? size : (size_t)(early + sizeof early - (char *)old));
        return place;
    }
    long before = malloc_usable_size(old);
    if (refused(size > (size_t)before ? size - before : 0)) return NULL;
    void *place = next_realloc(old, size);
    if (place) held -= before;
    return taken(place);
}

void *aligned_alloc(size_t align, size_t size) { return refused(size) ? NULL : taken(next_aligned(align, size)); }

int posix_memalign(void **place, size_t align, size_t size) {
    if (refused(size)) return ENOMEM;
    *place = taken(next_aligned(align, (size + align - 1) / align * align));
    return *place ? 0 : ENOMEM;
}

void free(void *old) {
    if (!old || is_early(old)) return;
    held -= malloc_usable_size(old);
    next_free(old);
}
"""


@dataclass(frozen=True)
class Ran:
    """How a run ended. `made`, `most` and `refused` are 0 where the library did not tell."""

    status: int
    output: bytes
    words: bytes
    made: int  # allocations
    most: int  # bytes held at most
    refused: int  # allocations refused


class Shim:
    """The library, built once and kept as long as this is open."""

    def __enter__(self) -> Shim:
        self.folder = tempfile.TemporaryDirectory()
        source, self.library = Path(self.folder.name, "shim.c"), Path(self.folder.name, "shim.so")
        source.write_text(SHIM)
        subprocess.run(["cc", "-shared", "-fPIC", "-O1", "-o", self.library, source, "-ldl"], check=True)
        return self

    def __exit__(self, *_: object) -> None:
        self.folder.cleanup()

    def run(self, command: list[str], script: bytes, number: int = 0, room: int = 0, seconds: float = 120) -> Ran:
        """A run whose allocation of this number is refused, or each that would hold more bytes than the room; 0 is none."""
        reader, writer = os.pipe()
        env = dict(os.environ, LD_PRELOAD=str(self.library), RVDYN_REFUSED=str(number), RVDYN_ROOM=str(room), RVDYN_TOLD=str(writer))
        try:
            done = subprocess.run(command, input=script, capture_output=True, env=env, pass_fds=[writer], timeout=seconds, check=False)
        finally:
            os.close(writer)
            with os.fdopen(reader, "rb") as told:
                counts = told.read().split()
        made, most, refused = map(int, counts) if len(counts) == 3 else (0, 0, 0)
        return Ran(done.returncode, done.stdout, done.stderr, made, most, refused)


def is_front(output: bytes, transcript: bytes) -> bool:
    """Whether the output is the transcript of the first calls."""
    return transcript.startswith(output) and output.count(b"\n") % 2 == 0 and output[-1:] in (b"", b"\n")


def is_legal(output: bytes, script: bytes, whole: bool) -> bool:
    """Whether the output is a legal transcript of the script, of all its calls or, where it need not be whole, of the first ones."""
    ended = script if script[-1:] in (b"", b"\n") else script + b"\n"
    return verdict(ended + b"====\n" + output)[0] in ((0,) if whole else (0, MISSING))


def wrong_end(ran: Ran, whole: tuple[int, bytes, bytes], script: bytes) -> str | None:
    """What is wrong with the end of a run of a script with less memory, beside the end that it has with enough, or None.

    A background step beside a FETCH that finds no memory is left out, and no answer tells it. So the transcript may be another
    one, or a front of such a one, of which the rules in words have to say that it is legal."""
    status, output, words = whole
    if (ran.status, ran.output, ran.words) == whole:
        return None
    if (ran.status, ran.words) not in ((0, b""), (4, b"no memory\n")):
        return f"status {ran.status}, {len(ran.output)} bytes, {ran.words[-200:]!r}"
    if not ran.refused:
        return f"status {ran.status}, and nothing was refused"
    if ran.status == 4 and is_front(ran.output, output):
        return None
    if status == 0 and is_legal(ran.output, script, ran.status == 0):
        return None
    return f"status {ran.status}, and {len(ran.output)} bytes that are no {'legal transcript' if ran.status == 0 else 'front of a legal transcript'}"
