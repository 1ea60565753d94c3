/* Runs a command, and writes into a file its seconds of processor, its peak of memory in KB, and its status. It is small, so that
   the peak is the command's: what the kernel counts begins with what the process was before it became the command. */
#include <stdio.h>
#include <sys/resource.h>
#include <sys/wait.h>
#include <unistd.h>

int main(int count, char **words)
{
    if (count < 3) {
        fputs("usage: timed FILE COMMAND ..\n", stderr);
        return 2;
    }
    pid_t child = fork();
    if (child < 0)
        return 4;
    if (child == 0) {
        execvp(words[2], words + 2);
        _exit(127);
    }
    struct rusage used;
    int status;
    if (wait4(child, &status, 0, &used) < 0)
        return 4;
    FILE *file = fopen(words[1], "w");
    if (file == NULL)
        return 5;
    double user = used.ru_utime.tv_sec + used.ru_utime.tv_usec / 1e6, kernel = used.ru_stime.tv_sec + used.ru_stime.tv_usec / 1e6;
    fprintf(file, "%.6f %ld %d\n", user + kernel, used.ru_maxrss, WIFEXITED(status) ? WEXITSTATUS(status) : 128 + WTERMSIG(status));
    return fclose(file) == 0 ? 0 : 5;
}
