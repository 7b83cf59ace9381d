/* Judges the network file of its argument through the library, and prints the verdict as the program `verdict` does. */
#include "lanecompass.h"
#include <stdio.h>

enum { READ = 4096 }; /* no answer depends on bytes after these */

/* The letters of a pattern of `width` bits, the highest bit left, * where the bit is free. */
static void print_pattern(unsigned width, uint32_t care, uint32_t value) {
    for (unsigned b = width; b-- > 0;)
        putchar(!(care >> b & 1) ? '*' : value >> b & 1 ? '1' : '0');
}

static void print_cycle(const uint8_t *cycle) {
    for (int i = 0; i < LANECOMPASS_CYCLE && cycle[i] != 255; i++)
        printf(" %u", (unsigned)cycle[i]);
}

int main(int argc, char **argv) {
    static uint8_t file[READ], cycle[LANECOMPASS_CYCLE];
    static uint32_t cares[LANECOMPASS_CLASSES], values[LANECOMPASS_CLASSES];
    static uint64_t sizes[LANECOMPASS_CLASSES];
    uint64_t out[LANECOMPASS_FIGURES];

    FILE *input = argc == 2 ? fopen(argv[1], "rb") : NULL;
    if (!input) {
        fprintf(stderr, "usage: desk FILE, a network file that can be read\n");
        return 2;
    }
    size_t length = fread(file, 1, READ, input);
    if (ferror(input)) {
        fprintf(stderr, "desk: cannot read %s\n", argv[1]);
        return 2;
    }
    fclose(input);

    uint8_t number = lanecompass_judge(file, length, cares, LANECOMPASS_CLASSES, values, LANECOMPASS_CLASSES,
                                       sizes, LANECOMPASS_CLASSES, cycle, LANECOMPASS_CYCLE, out, LANECOMPASS_FIGURES);
    if (number != 0) {
        printf("refused %u at %llu\n", (unsigned)number, (unsigned long long)out[0]);
        return 0;
    }
    unsigned width = (unsigned)out[0];
    printf("width %u nodes %llu rules %llu\n", width, (unsigned long long)out[1], (unsigned long long)out[2]);
    printf("classes %llu\n", (unsigned long long)out[3]);
    for (uint64_t i = 0; i < out[3]; i++) {
        print_pattern(width, cares[i], values[i]);
        printf(" %llu\n", (unsigned long long)sizes[i]);
    }
    if (out[4] == 0) {
        puts("free");
        return 0;
    }
    printf("loop ");
    print_pattern(width, 0xFFFFFFFF, (uint32_t)out[5]);
    printf(" cycle");
    print_cycle(cycle);
    putchar('\n');
    return 0;
}
