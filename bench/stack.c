// Calls the library on a painted stack of known size, on the files of its arguments, and prints the deepest use of it by
// each call. For x86-64, as the library is.
#include "lanecompass.h"
#include <stdio.h>
#include <string.h>

enum { CLASSES = LANECOMPASS_CLASSES, CYCLE = LANECOMPASS_CYCLE, FIGURES = LANECOMPASS_FIGURES };
enum { STACK = 65536, PAINT = 0xA5 };

static uint8_t stack[STACK] __attribute__((aligned(16)));

static uint8_t file[4096], cycle[CYCLE], start;
static size_t length;
static uint32_t cares[CLASSES], values[CLASSES];
static uint64_t sizes[CLASSES], out[FIGURES], header;

static void call_read(void) { lanecompass_read(file, length, out, FIGURES); }
static void call_judge(void) {
    lanecompass_judge(file, length, cares, CLASSES, values, CLASSES, sizes, CLASSES, cycle, CYCLE, out, FIGURES);
}
static void call_walk(void) { lanecompass_walk(file, length, header, start, out, FIGURES); }

// The bytes of the painted stack that a call changed, from the top to the deepest.
static size_t depth(void (*call)(void)) {
    uint8_t *top = stack + STACK;
    size_t low = 0;
    memset(stack, PAINT, STACK);
    __asm__ volatile("movq %%rsp, %%rbx\n\tmovq %0, %%rsp\n\tcallq *%1\n\tmovq %%rbx, %%rsp"
                     : "+r"(top), "+r"(call)
                     :
                     : "rbx", "rax", "rcx", "rdx", "rsi", "rdi", "r8", "r9", "r10", "r11", "memory", "cc", "xmm0", "xmm1",
                       "xmm2", "xmm3", "xmm4", "xmm5", "xmm6", "xmm7", "xmm8", "xmm9", "xmm10", "xmm11", "xmm12", "xmm13",
                       "xmm14", "xmm15");
    while (low < STACK && stack[low] == PAINT)
        low++;
    return STACK - low;
}

static size_t most(size_t a, size_t b) { return a > b ? a : b; }

int main(int argc, char **argv) {
    size_t read = 0, judge = 0, walk = 0;
    for (int i = 1; i < argc; i++) {
        FILE *f = fopen(argv[i], "rb");
        if (!f) {
            fprintf(stderr, "cannot read %s\n", argv[i]);
            return 2;
        }
        length = fread(file, 1, sizeof file, f);
        fclose(f);
        read = most(read, depth(call_read));
        judge = most(judge, depth(call_judge));
        header = out[4] == 1 ? out[5] : 0;
        for (start = 0; start < 65; start++)
            walk = most(walk, depth(call_walk));
    }
    printf("stack, in bytes, over %d files: read %zu, judge %zu, walk %zu\n", argc - 1, read, judge, walk);
    size_t lent = sizeof cares + sizeof values + sizeof sizes + sizeof cycle + sizeof out;
    printf("judge in all: lent lists %zu, file %zu, stack %zu: %zu of 65536\n", lent, sizeof file, judge,
           lent + sizeof file + judge);
    return judge < STACK && walk < STACK ? 0 : 1;
}
