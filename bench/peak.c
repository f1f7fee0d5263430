/* Runs a program on its own standard input and output, and writes its wall-clock milliseconds and its peak resident set in KiB to a file. */
#define _DEFAULT_SOURCE
#include <stdio.h>
#include <sys/resource.h>
#include <sys/wait.h>
#include <time.h>
#include <unistd.h>

static double milliseconds(void)
{
    struct timespec now;
    clock_gettime(CLOCK_MONOTONIC, &now);
    return (double)now.tv_sec * 1e3 + (double)now.tv_nsec / 1e6;
}

/* peak FILE PROGRAM [ARGUMENT ...] */
int main(int argc, char **argv)
{
    if (argc < 3) {
        fprintf(stderr, "peak FILE PROGRAM [ARGUMENT ...]\n");
        return 2;
    }
    const double began = milliseconds();
    const pid_t child = fork();
    if (child == 0) {
        execv(argv[2], argv + 2);
        perror(argv[2]);
        _exit(127);
    }
    int status;
    struct rusage usage;
    if (child < 0 || wait4(child, &status, 0, &usage) != child) {
        perror("peak");
        return 2;
    }
    const double took = milliseconds() - began;
    FILE *file = fopen(argv[1], "w");
    if (file == NULL || fprintf(file, "%.3f %ld\n", took, usage.ru_maxrss) < 0 || fclose(file) == EOF) {
        perror(argv[1]);
        return 2;
    }
    return WIFEXITED(status) ? WEXITSTATUS(status) : 1;
}
