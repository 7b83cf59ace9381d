// Times the library against the plain C version on the files of its arguments, in one run, and prints the times and their
// ratio. Answers that differ end it with status 1.
#include "lanecompass.h"
#include "plain.h"
#include <stdio.h>
#include <string.h>
#include <time.h>

enum { CLASSES = LANECOMPASS_CLASSES, CYCLE = LANECOMPASS_CYCLE, FIGURES = LANECOMPASS_FIGURES };
enum { ROUNDS = 9 };

// All that a call is lent, and what it left there.
struct room {
    uint32_t cares[CLASSES], values[CLASSES];
    uint64_t sizes[CLASSES], out[FIGURES];
    uint8_t cycle[CYCLE], number;
};

static uint8_t file[4096];
static size_t length;
static uint64_t header;
static struct room left, right;

typedef void call(void);

static void read_library(void) { left.number = lanecompass_read(file, length, left.out, FIGURES); }
static void read_plain(void) { right.number = plain_read(file, length, right.out, FIGURES); }

static void judge_library(void) {
    struct room *r = &left;
    r->number = lanecompass_judge(file, length, r->cares, CLASSES, r->values, CLASSES, r->sizes, CLASSES, r->cycle, CYCLE,
                                  r->out, FIGURES);
}

static void judge_plain(void) {
    struct room *r = &right;
    r->number = plain_judge(file, length, r->cares, CLASSES, r->values, CLASSES, r->sizes, CLASSES, r->cycle, CYCLE,
                            r->out, FIGURES);
}

static void walk_library(void) { left.number = lanecompass_walk(file, length, header, 0, left.out, FIGURES); }
static void walk_plain(void) { right.number = plain_walk(file, length, header, 0, right.out, FIGURES); }

static uint64_t nanoseconds(void) {
    struct timespec t;
    clock_gettime(CLOCK_MONOTONIC, &t);
    return (uint64_t)t.tv_sec * 1000000000 + (uint64_t)t.tv_nsec;
}

static uint64_t time_of(call *f, uint64_t times) {
    uint64_t began = nanoseconds();
    for (uint64_t i = 0; i < times; i++)
        f();
    return nanoseconds() - began;
}

// The least time of one call over some rounds, in which the two sides take turns.
static int compare(const char *name, const char *what, call *library, call *plain) {
    memset(&left, 7, sizeof left);
    memset(&right, 7, sizeof right);
    library();
    plain();
    if (memcmp(&left, &right, sizeof left) != 0) {
        printf("%s %s: THE ANSWERS DIFFER\n", name, what);
        return 1;
    }
    uint64_t times = 1, a = ~0ull, b = ~0ull;
    while (time_of(plain, times) < 10000000)
        times *= 2;
    for (int k = 0; k < ROUNDS; k++) {
        uint64_t t = time_of(library, times), u = time_of(plain, times);
        a = t < a ? t : a;
        b = u < b ? u : b;
    }
    printf("%-16s %-6s %12.2f %12.2f %8.2f\n", name, what, (double)a / (double)times / 1000,
           (double)b / (double)times / 1000, (double)a / (double)b);
    return 0;
}

static const char *last_part(const char *path) {
    const char *name = path;
    for (; *path; path++)
        if (*path == '/')
            name = path + 1;
    return name;
}

int main(int argc, char **argv) {
    printf("%-16s %-6s %12s %12s %8s\n", "file", "call", "library us", "plain C us", "ratio");
    for (int i = 1; i < argc; i++) {
        FILE *f = fopen(argv[i], "rb");
        if (!f) {
            fprintf(stderr, "cannot read %s\n", argv[i]);
            return 2;
        }
        length = fread(file, 1, sizeof file, f);
        fclose(f);
        const char *name = last_part(argv[i]);
        if (compare(name, "judge", judge_library, judge_plain))
            return 1;
        header = left.number == 0 && left.out[4] ? left.out[5] : 0;
        if (compare(name, "read", read_library, read_plain) || compare(name, "walk", walk_library, walk_plain))
            return 1;
    }
    return 0;
}
