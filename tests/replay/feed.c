// feed CUT CMD [ARG..]: runs CMD with standard input in pieces of CUT bytes, each written once the one before it has been
// read, so that CMD sees exactly these cuts. With CUT 0 CMD has the standard input as it is. Ends with CMD's status; where
// PEAK names a file, CMD's largest resident size in kB is written there.
#define _DEFAULT_SOURCE
#include <errno.h>
#include <sched.h>
#include <signal.h>
#include <stdio.h>
#include <stdlib.h>
#include <sys/ioctl.h>
#include <sys/resource.h>
#include <sys/wait.h>
#include <unistd.h>

static void fail(const char *what)
{
    perror(what);
    exit(125);
}

// Whether all that was written has been read; CMD may also have ended.
static int taken(int out, pid_t child, int *status, int *ended)
{
    int left = 0;
    if (ioctl(out, FIONREAD, &left) != 0)
        fail("feed: FIONREAD");
    if (left == 0)
        return 1;
    *ended = waitpid(child, status, WNOHANG) == child;
    if (!*ended)
        sched_yield();
    return *ended;
}

// Writes standard input to CMD in pieces.
static void feed(size_t cut, int out, pid_t child, int *status, int *ended)
{
    char *piece = malloc(cut);
    if (piece == NULL)
        fail("feed: malloc");
    while (!*ended) {
        size_t n = fread(piece, 1, cut, stdin);
        if (n == 0 || write(out, piece, n) != (ssize_t)n)
            break;
        while (!taken(out, child, status, ended))
            continue;
    }
    free(piece);
}

static void report(void)
{
    const char *path = getenv("PEAK");
    struct rusage usage;
    if (path == NULL)
        return;
    FILE *file = fopen(path, "w");
    if (file == NULL || getrusage(RUSAGE_CHILDREN, &usage) != 0)
        fail("feed: PEAK");
    fprintf(file, "%ld\n", usage.ru_maxrss);
    fclose(file);
}

int main(int argc, char **argv)
{
    if (argc < 3)
        return 125;
    size_t cut = strtoul(argv[1], NULL, 10);
    int ends[2], status = 0, ended = 0;
    if (cut > 0 && pipe(ends) != 0)
        fail("feed: pipe");
    pid_t child = fork();
    if (child < 0)
        fail("feed: fork");
    if (child == 0) {
        if (cut > 0 && (dup2(ends[0], 0) != 0 || close(ends[0]) != 0 || close(ends[1]) != 0))
            fail("feed: dup2");
        execv(argv[2], argv + 2);
        fail(argv[2]);
    }
    signal(SIGPIPE, SIG_IGN);
    if (cut > 0) {
        close(ends[0]);
        feed(cut, ends[1], child, &status, &ended);
        close(ends[1]);
    }
    while (!ended && waitpid(child, &status, 0) != child)
        if (errno != EINTR)
            fail("feed: waitpid");
    report();
    return WIFEXITED(status) ? WEXITSTATUS(status) : 128 + WTERMSIG(status);
}
