// Judges the file of its argument once, for bench/instructions: through the library, or by the plain C version where it is
// compiled with -DPLAIN.
#include "lanecompass.h"
#include "plain.h"
#include <stdio.h>

#ifdef PLAIN
#define JUDGE plain_judge
#else
#define JUDGE lanecompass_judge
#endif

enum { CLASSES = LANECOMPASS_CLASSES, CYCLE = LANECOMPASS_CYCLE, FIGURES = LANECOMPASS_FIGURES };

int main(int argc, char **argv) {
    static uint8_t file[4096], cycle[CYCLE];
    static uint32_t cares[CLASSES], values[CLASSES];
    static uint64_t sizes[CLASSES], out[FIGURES];
    FILE *f = argc == 2 ? fopen(argv[1], "rb") : NULL;
    if (!f) {
        fprintf(stderr, "once: one file that can be read is needed\n");
        return 2;
    }
    size_t length = fread(file, 1, sizeof file, f);
    JUDGE(file, length, cares, CLASSES, values, CLASSES, sizes, CLASSES, cycle, CYCLE, out, FIGURES);
    return 0;
}
