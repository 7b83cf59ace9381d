// Prints what Read says of each file of its arguments and what Walk says of some headers from every node, in the words of
// `tests/brute --walks`, which tests/desk compares with it.
#include "lanecompass.h"
#include <stdio.h>

enum { MOST = 8192, FIGURES = LANECOMPASS_FIGURES };

static uint8_t file[MOST];
static size_t length;
static uint64_t out[FIGURES];

static unsigned long long figure(int k) { return out[k]; }

static void print_read(const char *name, uint8_t number) {
    if (number != 0)
        printf("%s refused %u at %llu\n", name, (unsigned)number, figure(0));
    else
        printf("%s width %llu nodes %llu rules %llu\n", name, figure(0), figure(1), figure(2));
}

static void print_walk(const char *name, uint64_t header, uint8_t start) {
    static const char *const outcomes[] = {"delivered", "dropped", "circling"};
    uint8_t number = lanecompass_walk(file, length, header, start, out, FIGURES);
    printf("%s %llu from %u ", name, (unsigned long long)header, (unsigned)start);
    if (number != 0)
        printf("refused %u at %llu\n", (unsigned)number, figure(0));
    else
        printf("%s at %llu, hops %llu\n", out[0] < 3 ? outcomes[out[0]] : "no outcome", figure(1), figure(2));
}

// Sixteen headers, which are all where the width is 4 or less, and one too large; each node, and one that is not there.
static void print_walks(const char *name, uint64_t width, uint64_t nodes) {
    uint64_t headers = 1ull << width;
    for (uint64_t k = 0; k < 16 && k < headers; k++)
        for (uint64_t start = 0; start <= nodes; start++)
            print_walk(name, k * 0x9E3779B1 % headers, (uint8_t)start);
    for (uint64_t start = 0; start <= nodes; start++)
        print_walk(name, headers, (uint8_t)start);
}

int main(int argc, char **argv) {
    for (int k = 1; k < argc; k++) {
        FILE *f = fopen(argv[k], "rb");
        if (!f) {
            fprintf(stderr, "walks: cannot read %s\n", argv[k]);
            return 2;
        }
        length = fread(file, 1, MOST, f);
        fclose(f);
        if (length == MOST) {
            fprintf(stderr, "walks: %s is longer than %d bytes\n", argv[k], MOST - 1);
            return 2;
        }
        uint8_t number = lanecompass_read(file, length, out, FIGURES);
        print_read(argv[k], number);
        print_walks(argv[k], number == 0 ? out[0] : 0, number == 0 ? out[1] : 0);
    }
    return 0;
}
