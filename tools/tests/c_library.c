/* Tries rvdyn_run: c_library SCRIPT TRANSCRIPT, a script whose run is known, without an error in it. Each line that it writes is a
 * fault; the status is 1 where there is one. It is linked with --wrap=malloc, realloc and free, to refuse memory and to count it. */
#include "../../crates/rvdyn_c/rvdyn.h"

#include <pthread.h>
#include <stdarg.h>
#include <stdatomic.h>
#include <stdio.h>
#include <stdlib.h>
#include <string.h>

enum { BEHIND = 64, FILL = 0xa5, THREADS = 4 };

void *__real_malloc(size_t size);
void *__real_realloc(void *block, size_t size);
void __real_free(void *block);

static atomic_long asked, held; /* calls for memory so far, and blocks that are not given back */
static long refused;            /* the number of the call that is refused, from 1; 0 for none */
static atomic_int faults;

void *__wrap_malloc(size_t size) {
    if (++asked == refused)
        return NULL;
    void *block = __real_malloc(size);
    held += block != NULL;
    return block;
}

void *__wrap_realloc(void *block, size_t size) {
    if (++asked == refused)
        return NULL;
    void *moved = __real_realloc(block, size);
    held += !block && moved;
    return moved;
}

void __wrap_free(void *block) {
    held -= block != NULL;
    __real_free(block);
}

static void fault(const char *format, ...) {
    va_list values;
    va_start(values, format);
    vprintf(format, values);
    va_end(values);
    putchar('\n');
    faults++;
}

typedef struct {
    char *bytes;
    size_t length;
} Text;

static Text text(const char *bytes, size_t length) { return (Text){(char *)bytes, length}; }

static Text read_file(const char *name) {
    Text read = {__real_malloc(1 << 20), 0};
    FILE *file = fopen(name, "rb");
    if (!file || !read.bytes) {
        fprintf(stderr, "%s cannot be read\n", name);
        exit(2);
    }
    read.length = fread(read.bytes, 1, 1 << 20, file);
    fclose(file);
    return read;
}

/* A run with so much room, in which it has to write no more than is told, and to keep the memory that it takes. */
static uint32_t run(const char *what, Text script, size_t room, char *out, size_t *written) {
    long before = held;
    memset(out, FILL, room + BEHIND);
    *written = 12345;
    uint32_t status = rvdyn_run(script.bytes, script.length, out, room, written);
    for (size_t at = *written < room ? *written : room; at < room + BEHIND; at++)
        if ((unsigned char)out[at] != FILL) {
            fault("%s, room %zu: byte %zu behind the %zu that are told is changed", what, room, at, *written);
            break;
        }
    if (held != before)
        fault("%s, room %zu: %ld blocks are not given back", what, room, held - before);
    return status;
}

/* A run that has to end with this status and to tell this, of which as much as fits is there. */
static void expect(const char *what, Text script, size_t room, uint32_t status, Text told) {
    char *out = __real_malloc(room + BEHIND);
    size_t written, fits = told.length < room ? told.length : room;
    uint32_t came = run(what, script, room, out, &written);
    if (came != status)
        fault("%s, room %zu: status %u, not %u", what, room, (unsigned)came, (unsigned)status);
    else if (written != told.length)
        fault("%s, room %zu: %zu bytes told, not %zu", what, room, written, told.length);
    else if (memcmp(out, told.bytes, fits) != 0)
        fault("%s, room %zu: other bytes are told", what, room);
    __real_free(out);
}

/* Nothing is too little: from no room to more than enough. */
static void try_rooms(Text script, Text transcript) {
    for (size_t room = 0; room <= transcript.length + 2; room += room < transcript.length - 4 ? 1 + transcript.length / 40 : 1)
        expect("the script", script, room, RVDYN_DONE, transcript);
}

/* Texts that are no script, that have no call, or that have bytes 0. */
static void try_texts(void) {
    static char line[4099 + 6], lines[200001];
    memset(line, 'x', sizeof line);
    memcpy(line, "1 A\n2 ", 6);
    memset(lines, '\n', sizeof lines);
#define TEXT(bytes) text(bytes, sizeof bytes - 1)
#define EXPECT(script, status, told) expect(#script, script, 200, status, TEXT(told))
    EXPECT(TEXT(""), RVDYN_DONE, "");
    EXPECT(TEXT("\n# no call\n--\n"), RVDYN_DONE, "");
    EXPECT(TEXT("1 BEGIN"), RVDYN_DONE, "1 BEGIN\n= began 1\n");
    EXPECT(TEXT("# \0\n1 A\0\n8  b"), RVDYN_DONE, "1 A\0\n= syntax\n8  b\n= syntax\n");
    EXPECT(TEXT("1 BEGIN\n\n9 COMMIT\n"), RVDYN_SCRIPT, "script: line 3 has no session");
    EXPECT(TEXT("1 \xff"), RVDYN_SCRIPT, "script: byte 2 is not UTF-8");
    EXPECT(text(line, sizeof line), RVDYN_LIMIT, "limit: line 2 over 4096 bytes");
    EXPECT(text(lines, sizeof lines), RVDYN_LIMIT, "limit: script over 200000 lines");
    expect("no script, and little room", TEXT("\n9 COMMIT\n"), 20, RVDYN_SCRIPT, TEXT("script: line 2 has no session"));
    char *long_script = __real_malloc(16777217);
    memset(long_script, '#', 16777217);
    EXPECT(text(long_script, 16777217), RVDYN_LIMIT, "limit: script over 16777216 bytes");
    __real_free(long_script);
}

/* How many lines stand whole in a text. */
static size_t lines_of(const char *bytes, size_t length) {
    size_t lines = 0;
    for (size_t at = 0; at < length; at++)
        lines += bytes[at] == '\n';
    return lines;
}

/* Each call for memory of a run is refused, one a run: what is told is then the transcript of the first calls, or a front of it. */
static void try_refused(Text script, Text transcript) {
    char *out = __real_malloc(transcript.length + BEHIND);
    size_t written;
    long all = asked;
    uint32_t status = run("with memory", script, transcript.length, out, &written);
    all = asked - all;
    if (all == 0)
        fault("no calls for memory were counted");
    for (long number = 1; number <= all; number++) {
        refused = asked + number;
        status = run("refused memory", script, transcript.length, out, &written);
        refused = 0;
        if (status != RVDYN_MEMORY && status != RVDYN_WRITE && status != RVDYN_DONE)
            fault("memory refused at %ld of %ld: status %u", number, all, (unsigned)status);
        else if (written > transcript.length || memcmp(out, transcript.bytes, written) != 0)
            fault("memory refused at %ld of %ld: what is told is no front of the transcript", number, all);
        else if (status == RVDYN_DONE && written != transcript.length)
            fault("memory refused at %ld of %ld: status 0 with %zu of %zu bytes", number, all, written, transcript.length);
        else if (status == RVDYN_MEMORY && written && (out[written - 1] != '\n' || lines_of(out, written) % 2))
            fault("memory refused at %ld of %ld: what is told ends within a call", number, all);
    }
    __real_free(out);
}

static Text shared_script, shared_transcript;

static void *run_beside(void *unused) {
    char *out = __real_malloc(shared_transcript.length);
    size_t written;
    for (int times = 0; times < 5; times++) {
        uint32_t status = rvdyn_run(shared_script.bytes, shared_script.length, out, shared_transcript.length, &written);
        if (status != RVDYN_DONE || written != shared_transcript.length || memcmp(out, shared_transcript.bytes, written) != 0)
            fault("beside other threads: status %u, %zu bytes, or other bytes", (unsigned)status, written);
    }
    __real_free(out);
    return unused;
}

/* Several threads call at once. */
static void try_threads(Text script, Text transcript) {
    pthread_t threads[THREADS];
    shared_script = script;
    shared_transcript = transcript;
    for (int at = 0; at < THREADS; at++)
        if (pthread_create(&threads[at], NULL, run_beside, NULL) != 0)
            fault("no thread was started");
    for (int at = 0; at < THREADS; at++)
        pthread_join(threads[at], NULL);
}

int main(int count, char **words) {
    if (count != 3) {
        fprintf(stderr, "usage: c_library SCRIPT TRANSCRIPT\n");
        return 2;
    }
    Text script = read_file(words[1]), transcript = read_file(words[2]);
    try_rooms(script, transcript);
    try_texts();
    try_refused(script, transcript);
    try_threads(script, transcript);
    __real_free(script.bytes);
    __real_free(transcript.bytes);
    return faults != 0;
}
