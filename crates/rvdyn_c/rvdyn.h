/* rvdyn for C and for what speaks C: one call, which runs a script in memory. docs/LANGUAGE.md says what a script is.
 *
 *     cc program.c librvdyn_c.a liblibc_c.a
 *
 * librvdyn_c.a is the engine, and liblibc_c.a, of the kit, lets it take memory by the program's malloc, realloc and free. Both are
 * position independent, so that a shared object can be made of them (examples/run.py). They are for Linux on x86-64-v2. */
#ifndef RVDYN_H
#define RVDYN_H

#include <stddef.h>
#include <stdint.h>

#ifdef __cplusplus
extern "C" {
#endif

/* How a run ended, by the exit codes of the program. There is no other answer. A call of the script that is refused, as one that is
 * `syntax`, is answered in the transcript, and the run goes on. */
enum rvdyn_status {
    /* All calls were made; what is told is their transcript. */
    RVDYN_DONE = 0,
    /* The bytes are no script, and no call was made; what is told is why, as "script: line 3 has no session". */
    RVDYN_SCRIPT = 2,
    /* The script has more than 16,777,216 bytes, 200,000 lines or 4,096 bytes in a line, and no call was made; what is told is
     * which, as "limit: line 3 over 4096 bytes". */
    RVDYN_LIMIT = 3,
    /* Memory was wanting; what is told is the transcript of the calls before that, or nothing. */
    RVDYN_MEMORY = 4,
    /* Memory was wanting for the transcript; what is told is a front of it, which may end within a line. */
    RVDYN_WRITE = 6
};

/* Runs the `script_len` bytes at `script` from an empty database on, one call after another, as ./rvdyn does without options, and
 * answers a status. As much of what is told as fits is put into the `out_len` bytes at `out`, and `*written` becomes the length of
 * all that is told. Where that is more than `out_len`, call again with so much room: the run is made anew, and takes its time again.
 *
 * Memory. All of it is the caller's: `script` is only read, `out` is written in its front alone, no pointer is kept, and all that the
 * call takes from malloc is free before it returns, whatever it answers. Where malloc gives nothing, the answer is RVDYN_MEMORY or
 * RVDYN_WRITE; nothing is aborted. Of stack it takes some 50 KB, as measured with the examples; no proof bounds that.
 *
 * Pointers. None of the three may be null, even beside a length of 0, and what they point to may not overlap.
 *
 * Bytes. Neither script nor answer is a C string: nothing is put behind what is told, and a byte 0 is like any other (in a comment it
 * says nothing, in a call it is `syntax`, and the transcript repeats the call). The last line may lack its end. A script of no bytes,
 * or of no calls, gives RVDYN_DONE and no transcript.
 *
 * Threads. Nothing is shared between calls, so several threads may call at once, each with an `out` and a `written` of its own. The
 * call starts no thread, takes no lock, and touches neither files nor streams nor signals; errno may be what malloc has left there.
 * It may not be made from a signal handler, nor from the child that a process with threads has forked. */
uint32_t rvdyn_run(const void *script, size_t script_len, void *out, size_t out_len, size_t *written);

#ifdef __cplusplus
}
#endif

#endif
