// calls ROUNDS OURS.so RUST.so|- [BEFORE.so]: times the loops of each library, the rounds of all in turn on one core, and prints the rows of the
// table in README.md. A time is the least of the rounds: that of n events less that of none, so the making of the connection isn't in it.
#define _GNU_SOURCE
#include <dlfcn.h>
#include <sched.h>
#include <stdint.h>
#include <stdio.h>
#include <stdlib.h>
#include <string.h>
#include <time.h>

enum { OURS, RUST, BEFORE, LIBRARIES };
enum { HEADER = 12, SLOTS = 1024, BODY = 16384, POOL = 1 << 24, CREDIT = 2000000000 };

// A loop and what it works on. The remote's frames are of type `type` and length `length`.
struct row {
    const char *name, *loop;
    uint32_t streams, slots, type, length, body;
    uint64_t n;
};

static const struct row rows[] = {
    { "window update", "update", 16, 16, 1, 1, 0, 5000 },
    { "window update", "update", 512, 1024, 1, 1, 0, 5000 },
    { "64 B in and read", "data", 16, 16, 0, 64, 64, 5000 },
    { "64 B in and read", "data", 512, 1024, 0, 64, 64, 5000 },
    { "1,400 B in and read", "data", 16, 16, 0, 1400, 1400, 3000 },
    { "1,400 B in and read", "data", 512, 1024, 0, 1400, 1400, 3000 },
    { "16 KiB in and read", "data", 16, 16, 0, BODY, BODY, 1024 },
    { "16 KiB in and read", "data", 512, 1024, 0, BODY, BODY, 8192 },
    { "push and pop, 64 B", "queue", 1, 1, 0, 0, 64, 20000 },
    { "push and pop, 1,400 B", "queue", 1, 1, 0, 0, 1400, 10000 },
    { "push and pop, 16 KiB", "queue", 1, 1, 0, 0, BODY, 2000 },
    { "write of 64 B", "write", 16, 16, 0, 0, 64, 20000 },
    { "write of 64 B", "write", 512, 1024, 0, 0, 64, 20000 },
    { "tick", "tick", 16, 16, 0, 0, 0, 20000 },
    { "tick", "tick", 512, 1024, 0, 0, 0, 20000 },
    { "open and drop", "open", 15, 16, 0, 0, 0, 2000 },
    { "open and drop", "open", 511, 1024, 0, 0, 0, 2000 },
};

// What a library is lent, in the order in which its loops take it; slices are a pointer and a length.
static uint64_t *table;
static uint32_t *links;
static uint8_t *pool, sent[HEADER], heads[2 * SLOTS * HEADER], body[BODY], out[BODY];

typedef uint64_t ours_loop(uint64_t *, size_t, uint32_t *, size_t, uint8_t *, size_t, uint8_t *, size_t, const uint8_t *, size_t,
                           const uint8_t *, size_t, uint8_t *, size_t, uint32_t, uint32_t, uint32_t, uint64_t);
typedef uint64_t rust_loop(size_t, size_t, uint64_t);
typedef size_t length_of(uint32_t, uint32_t);

// NULL where the library hasn't it: the loop over a queue is in a library of its own, and the Rust has none.
static void *loop_of(void *library, int which, const char *name)
{
    char whole[32];
    snprintf(whole, sizeof whole, "%s_%s", which == RUST ? "rust" : "ours", name);
    return library == NULL ? NULL : dlsym(library, whole);
}

static void *symbol(void *library, int which, const char *name)
{
    void *found = loop_of(library, which, name);
    if (found == NULL) {
        fprintf(stderr, "calls: no %s\n", name);
        exit(1);
    }
    return found;
}

static size_t length(void *library, const char *name, uint32_t slots)
{
    return ((length_of *)symbol(library, OURS, name))(slots, POOL);
}

static size_t most(size_t a, size_t b)
{
    return a > b ? a : b;
}

static void put(uint8_t *to, uint32_t n)
{
    for (int i = 0; i < 4; i++)
        to[i] = (uint8_t)(n >> (24 - 8 * i));
}

// A header of version 0.
static void head(uint8_t *to, uint32_t type, uint32_t flags, uint32_t id, uint32_t length)
{
    put(to, type << 16 | flags);
    put(to + 4, id);
    put(to + 8, length);
}

// Processor time, which others on the core don't add to.
static double now(void)
{
    struct timespec t;
    clock_gettime(CLOCK_PROCESS_CPUTIME_ID, &t);
    return 1e9 * (double)t.tv_sec + (double)t.tv_nsec;
}

// Runs n events, and adds how many went as they should to `good`: the time it took.
static double run(int which, void *library, const struct row *r, uint64_t n, uint64_t *good)
{
    if (which == RUST) {
        rust_loop *loop = (rust_loop *)symbol(library, RUST, r->loop);
        double start = now();
        *good += loop(r->streams, r->body, n);
        return now() - start;
    }
    ours_loop *loop = (ours_loop *)symbol(library, which, r->loop);
    size_t cells = length(library, "table", r->slots), blocks = length(library, "links", r->slots), bytes = length(library, "pool", r->slots);
    double start = now();
    *good += loop(table, cells, links, blocks, pool, bytes, sent, HEADER, heads, 2 * HEADER * (size_t)r->streams, body, r->body, out, r->body,
                  r->streams, r->slots, POOL, n);
    return now() - start;
}

static void print(const struct row *r, const double *best, void **libraries)
{
    printf("| %s | %u in %u | ", r->name, r->streams, r->slots);
    if (loop_of(libraries[RUST], RUST, r->loop) != NULL)
        printf("%.1f | %.1f | %.2f |", best[RUST], best[OURS], best[OURS] / best[RUST]);
    else
        printf("- | %.1f | - |", best[OURS]);
    if (loop_of(libraries[BEFORE], BEFORE, r->loop) != NULL)
        printf(" %.1f | %.2f |", best[BEFORE], best[OURS] / best[BEFORE]);
    printf("\n");
    fflush(stdout);
}

static void measure(const struct row *r, int rounds, void **libraries)
{
    double best[LIBRARIES], none[LIBRARIES];
    for (int l = 0; l < LIBRARIES; l++)
        best[l] = none[l] = 1e18;
    for (uint32_t i = 0; i < r->streams; i++) {
        head(heads + HEADER * i, 1, 1, 2 * i + 1, CREDIT);
        head(heads + HEADER * (r->streams + i), r->type, 0, 2 * i + 1, r->length);
    }
    for (int i = 0; i < rounds; i++)
        for (int l = 0; l < LIBRARIES; l++) {
            if (loop_of(libraries[l], l, r->loop) == NULL)
                continue;
            uint64_t before = 0, after = 0;
            double idle = run(l, libraries[l], r, 0, &before), busy = run(l, libraries[l], r, r->n, &after);
            if (after - before != r->n) {
                fprintf(stderr, "calls: %s, library %d: %d of %d events went wrong\n", r->name, l, (int)(r->n - (after - before)), (int)r->n);
                exit(1);
            }
            none[l] = idle < none[l] ? idle : none[l];
            best[l] = busy < best[l] ? busy : best[l];
        }
    for (int l = 0; l < LIBRARIES; l++)
        best[l] = (best[l] - none[l]) / (double)r->n;
    print(r, best, libraries);
}

// Memory for the most slots that a row has, written to once, so that no page is new when it is timed.
static void *memory(size_t size)
{
    void *p = malloc(size);
    if (p == NULL)
        exit(1);
    return memset(p, 1, size);
}

int main(int argc, char **argv)
{
    void *libraries[LIBRARIES] = { NULL };
    int rounds = argc > 3 ? atoi(argv[1]) : 0;
    size_t cells = 0, blocks = 0, bytes = 0;
    for (int l = 0; l < LIBRARIES && l + 2 < argc; l++) {
        if (strcmp(argv[l + 2], "-") == 0)
            continue;
        libraries[l] = dlopen(argv[l + 2], RTLD_NOW | RTLD_LOCAL);
        if (libraries[l] == NULL) {
            fprintf(stderr, "calls: %s\n", dlerror());
            return 1;
        }
        if (l != RUST) {
            cells = most(cells, length(libraries[l], "table", SLOTS));
            blocks = most(blocks, length(libraries[l], "links", SLOTS));
            bytes = most(bytes, length(libraries[l], "pool", SLOTS));
        }
    }
    table = memory(cells * sizeof *table);
    links = memory(blocks * sizeof *links);
    pool = memory(bytes);
    // A page that was never written to is one of zeros that all such pages share: it is read at another speed.
    memset(body, 1, sizeof body);
    memset(out, 1, sizeof out);
    cpu_set_t one;
    CPU_ZERO(&one);
    CPU_SET(sched_getcpu(), &one);
    if (rounds < 1 || sched_setaffinity(0, sizeof one, &one) != 0)
        return 1;
    for (size_t i = 0; i < sizeof rows / sizeof *rows; i++)
        if (loop_of(libraries[OURS], OURS, rows[i].loop) != NULL)
            measure(&rows[i], rounds, libraries);
    return 0;
}
