/* What reading and writing the texts costs by itself: a script is read from the input and cut into lines, and for each of them two
   lines are written, all together of so many bytes as are told. */
#include <stdio.h>
#include <stdlib.h>
#include <string.h>

static char *read_all(size_t *length)
{
    size_t room = 1 << 20, held = 0, got;
    char *text = malloc(room);
    while (text != NULL && (got = fread(text + held, 1, room - held, stdin)) > 0) {
        held += got;
        if (held == room)
            text = realloc(text, room *= 2);
    }
    *length = held;
    return text;
}

int main(int count, char **words)
{
    if (count != 2) {
        fputs("usage: floor BYTES <SCRIPT\n", stderr);
        return 2;
    }
    size_t total = strtoull(words[1], NULL, 10), length, lines = 0, written = 0, done = 0;
    char *text = read_all(&length), *at, *end;
    if (text == NULL)
        return 4;
    for (at = text; (end = memchr(at, '\n', text + length - at)) != NULL; at = end + 1)
        lines++;
    char *line = malloc(lines > 0 ? total / lines + 3 : 1);
    if (line == NULL)
        return 4;
    memset(line, 'x', lines > 0 ? total / lines + 3 : 1);
    /* the half lines up to each one have their share of all bytes */
    for (at = text; (end = memchr(at, '\n', text + length - at)) != NULL; at = end + 1)
        for (int half = 0; half < 2; half++) {
            size_t share = (size_t)((double)total * ++done / (2.0 * lines)), more = share > written ? share - written : 0;
            if (more == 0)
                continue;
            fwrite(line, 1, more - 1, stdout);
            putchar('\n');
            written += more;
        }
    free(line);
    free(text);
    return fflush(stdout) == 0 ? 0 : 5;
}
