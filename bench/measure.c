// measure N TRACE CMD [-- CMD]..: runs each CMD in turn, N times over, on one core, TRACE as its standard input and
// /dev/null as its output. Prints for each the median of its wall times and that of its processor times, in milliseconds.
#define _GNU_SOURCE
#include <fcntl.h>
#include <sched.h>
#include <stdio.h>
#include <stdlib.h>
#include <string.h>
#include <sys/resource.h>
#include <sys/time.h>
#include <sys/wait.h>
#include <time.h>
#include <unistd.h>

#define COMMANDS 8
#define RUNS 1000

static void fail(const char *what)
{
    perror(what);
    exit(1);
}

static double of_timeval(struct timeval t)
{
    return 1e3 * (double)t.tv_sec + 1e-3 * (double)t.tv_usec;
}

static double wall_now(void)
{
    struct timespec t;
    clock_gettime(CLOCK_MONOTONIC, &t);
    return 1e3 * (double)t.tv_sec + 1e-6 * (double)t.tv_nsec;
}

static int by_size(const void *a, const void *b)
{
    double x = *(const double *)a, y = *(const double *)b;
    return (x > y) - (x < y);
}

// One run: its processor time.
static double run(const char *trace, char **command)
{
    pid_t child = fork();
    if (child == 0) {
        int in = open(trace, O_RDONLY), out = open("/dev/null", O_WRONLY);
        if (in < 0 || out < 0 || dup2(in, 0) != 0 || dup2(out, 1) != 1)
            fail(trace);
        execvp(command[0], command);
        fail(command[0]);
    }
    int status;
    struct rusage usage;
    if (child < 0 || wait4(child, &status, 0, &usage) != child)
        fail("measure");
    if (status != 0) {
        fprintf(stderr, "measure: %s did not end well\n", command[0]);
        exit(1);
    }
    return of_timeval(usage.ru_utime) + of_timeval(usage.ru_stime);
}

// Splits the words at each `--`; how many commands there are.
static int split(char **words, char **commands[COMMANDS])
{
    int n = 0;
    commands[n++] = words;
    for (; *words != NULL; words++)
        if (strcmp(*words, "--") == 0 && n < COMMANDS) {
            *words = NULL;
            commands[n++] = words + 1;
        }
    return n;
}

int main(int argc, char **argv)
{
    static double wall[COMMANDS][RUNS], processor[COMMANDS][RUNS];
    char **commands[COMMANDS];
    int n = argc > 3 ? atoi(argv[1]) : 0;
    if (n < 1 || n > RUNS)
        return 1;
    int count = split(argv + 3, commands);
    cpu_set_t one;
    CPU_ZERO(&one);
    CPU_SET(sched_getcpu(), &one);
    if (sched_setaffinity(0, sizeof one, &one) != 0)
        fail("measure: one core");
    for (int i = 0; i < n; i++)
        for (int c = 0; c < count; c++) {
            double start = wall_now();
            processor[c][i] = run(argv[2], commands[c]);
            wall[c][i] = wall_now() - start;
        }
    for (int c = 0; c < count; c++) {
        qsort(wall[c], (size_t)n, sizeof **wall, by_size);
        qsort(processor[c], (size_t)n, sizeof **processor, by_size);
        printf("%.1f %.1f%s", wall[c][n / 2], processor[c][n / 2], c + 1 < count ? " " : "\n");
    }
    return 0;
}
