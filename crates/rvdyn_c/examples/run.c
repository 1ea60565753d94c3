/* Runs the script in a file, and ends as ./rvdyn does: the transcript on standard output, why there is none on standard error, and
 * the status of the run.
 *
 *     cc -o run run.c ../out/librvdyn_c.a KIT/c/liblibc_c.a
 *     ./run ../../../examples/first-steps
 */
#include "../rvdyn.h"

#include <stdio.h>
#include <stdlib.h>

/* What a run tells, in a block that the caller frees; NULL where there is no memory for that. */
static char *run(const char *script, size_t script_len, uint32_t *status, size_t *written) {
    for (size_t room = 65536;; room = *written) {
        char *out = malloc(room);
        if (!out)
            return NULL;
        *status = rvdyn_run(script, script_len, out, room, written);
        if (*written <= room)
            return out;
        free(out);
    }
}

/* A file's bytes, in a block that the caller frees; NULL where they cannot be read. */
static char *read_file(const char *name, size_t *length) {
    FILE *file = fopen(name, "rb");
    size_t room = 65536, filled = 0;
    char *bytes = file ? malloc(room) : NULL;
    while (bytes) {
        filled += fread(bytes + filled, 1, room - filled, file);
        if (filled < room)
            break;
        char *more = realloc(bytes, room *= 2);
        if (!more)
            free(bytes);
        bytes = more;
    }
    if (bytes && ferror(file)) {
        free(bytes);
        bytes = NULL;
    }
    if (file)
        fclose(file);
    *length = filled;
    return bytes;
}

int main(int count, char **words) {
    if (count != 2) {
        fprintf(stderr, "usage: run SCRIPT\n");
        return 1;
    }
    size_t script_len, written;
    char *script = read_file(words[1], &script_len);
    if (!script) {
        perror(words[1]);
        return 5;
    }
    uint32_t status = RVDYN_MEMORY;
    char *told = run(script, script_len, &status, &written);
    free(script);
    if (status == RVDYN_SCRIPT || status == RVDYN_LIMIT)
        fprintf(stderr, "%.*s\n", (int)written, told);
    else if (told)
        fwrite(told, 1, written, stdout);
    if (status == RVDYN_MEMORY || status == RVDYN_WRITE)
        fprintf(stderr, "no memory\n");
    free(told);
    return (int)status;
}
