/* Times programs over a file on standard input, in turn, output thrown away: least processor time (user and system) and least time
 * by the clock, in seconds.
 *
 *     speed_run TURNS FILE PROGRAM... [, PROGRAM ARGUMENT...]
 *
 * Prints a line for each program: processor seconds, clock seconds, name. */
#define _DEFAULT_SOURCE
#include <fcntl.h>
#include <stdio.h>
#include <stdlib.h>
#include <string.h>
#include <sys/resource.h>
#include <sys/time.h>
#include <sys/wait.h>
#include <time.h>
#include <unistd.h>

static double clock_now(void)
{
    struct timespec t;
    clock_gettime(CLOCK_MONOTONIC, &t);
    return t.tv_sec + t.tv_nsec * 1e-9;
}

int main(int argc, char **argv)
{
    if (argc < 4) return 2;
    const int turns = atoi(argv[1]);
    char **programs[16];
    int n = 0;
    programs[n++] = argv + 3;
    for (int i = 3; i < argc && n < 16; i++)
        if (strcmp(argv[i], ",") == 0) {
            argv[i] = NULL;
            programs[n++] = argv + i + 1;
        }
    double cpu[16], wall[16];
    for (int turn = 0; turn < turns; turn++)
        for (int i = 0; i < n; i++) {
            const double began = clock_now();
            const pid_t pid = fork();
            if (pid == 0) {
                const int in = open(argv[2], O_RDONLY), out = open("/dev/null", O_WRONLY);
                if (in < 0 || out < 0) _exit(126);
                dup2(in, 0), dup2(out, 1), dup2(out, 2);
                execvp(programs[i][0], programs[i]);
                _exit(127);
            }
            int status;
            struct rusage use;
            if (pid < 0 || wait4(pid, &status, 0, &use) != pid || !WIFEXITED(status) || WEXITSTATUS(status) > 100) {
                fprintf(stderr, "%s did not run\n", programs[i][0]);
                return 1;
            }
            const double w = clock_now() - began;
            const double c = use.ru_utime.tv_sec + use.ru_stime.tv_sec + (use.ru_utime.tv_usec + use.ru_stime.tv_usec) * 1e-6;
            if (turn == 0 || c < cpu[i]) cpu[i] = c;
            if (turn == 0 || w < wall[i]) wall[i] = w;
        }
    for (int i = 0; i < n; i++) printf("%.6f %.6f %s\n", cpu[i], wall[i], programs[i][0]);
    return 0;
}
