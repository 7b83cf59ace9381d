// Checks the three exported calls where no network file alone leads: Read, Walk, short and long lists. After each call it
// compares the returned number, every figure and every entry of each lent list, those that no call may touch too. What is
// expected is written from paper 01 and lanecompass.h.
#include "lanecompass.h"
#include <stdio.h>
#include <string.h>

enum { FIGURES = 6, LISTED = 1024, CYCLE = 64 };
_Static_assert(LANECOMPASS_FIGURES == 6 && LANECOMPASS_CLASSES == 1024 && LANECOMPASS_CYCLE == 64, "paper 01's lengths");

// ---- the files

struct file {
    const char *name;
    const uint8_t *bytes;
    size_t length;
};
#define FILE_OF(bytes) {#bytes, bytes, sizeof bytes}

// Paper 01's cases C, D and I.
#define FIRST_RULE(mask) 0x03, 0, 0, 0, mask, 0, 0, 0, 4, 1
#define DROP(mask) 0x04, 0, 0, 0, mask, 0, 0, 0, mask
#define LAST_RULE 0x03, 0, 0, 0, 4, 0, 0, 0, 4, 0
static const uint8_t C[] = {0x01, 3, 2, 0x02, 0, FIRST_RULE(4), 0x02, 1, DROP(6), LAST_RULE, 0x7F};
static const uint8_t D[] = {0x01, 3, 2, 0x02, 0, FIRST_RULE(4), 0x02, 1, DROP(4), LAST_RULE, 0x7F};
static const uint8_t I[] = {0x01, 3, 2, 0x02, 0, FIRST_RULE(3), 0x02, 1, DROP(6), LAST_RULE, 0x7F};

// Case N: ten drop rules, each of one bit, all ten different.
#define BIT(b) 0x04, 0, 0, 1 << b >> 8, 1 << b & 255, 0, 0, 1 << b >> 8, 1 << b & 255
static const uint8_t N[] = {0x01, 10, 1, 0x02, 0, BIT(0), BIT(1), BIT(2), BIT(3), BIT(4),
                            BIT(5), BIT(6), BIT(7), BIT(8), BIT(9), 0x7F};

// Width 32, one empty table; and width 1, where node 0 forwards every header to node 1 and node 1 delivers it.
static const uint8_t Wide[] = {0x01, 32, 1, 0x02, 0, 0x7F};
static const uint8_t Delivering[] = {0x01, 1, 2, 0x02, 0, 0x03, 0, 0, 0, 0, 0, 0, 0, 0, 1,
                                     0x02, 1, 0x05, 0, 0, 0, 0, 0, 0, 0, 0, 0x7F};

static const struct file case_c = FILE_OF(C), case_d = FILE_OF(D), case_i = FILE_OF(I), case_n = FILE_OF(N);
static const struct file wide = FILE_OF(Wide), delivering = FILE_OF(Delivering), empty = {"the empty file", C, 0};

// ---- what is lent

// The lists that are lent are followed by some entries that no call may touch.
enum { PAST = 8, PAINT = 0xA5 };

struct room {
    uint32_t cares[LISTED + PAST], values[LISTED + PAST];
    uint64_t sizes[LISTED + PAST], out[FIGURES + PAST];
    uint8_t cycle[CYCLE + PAST], number;
};

static struct room got, wanted;

// The lengths that are handed over.
struct lengths {
    size_t cares, values, sizes, cycle, out;
};

static const struct lengths enough = {LISTED, LISTED, LISTED, CYCLE, FIGURES};
static const struct lengths longer = {LISTED + PAST, LISTED + PAST, LISTED + PAST, CYCLE + PAST, FIGURES + PAST};

// ---- what is wanted of the next call

// This number, and nothing written anywhere.
static void want_untouched(uint8_t number) {
    memset(&got, PAINT, sizeof got);
    memset(&wanted, PAINT, sizeof wanted);
    wanted.number = number;
}

// This number and these figures, and judge's four lists as they were.
static void want(uint8_t number, const uint64_t figures[FIGURES]) {
    want_untouched(number);
    for (size_t k = 0; k < FIGURES; k++)
        wanted.out[k] = figures[k];
}

#define FIGURES_OF(...) ((const uint64_t[FIGURES]){__VA_ARGS__})

static void want_refusal(uint8_t number, uint64_t place) { want(number, FIGURES_OF(place, 0, 0, 0, 0, 0)); }

// Besides: no class and no cycle, the entries past 1,024 and past 64 as they were.
static void want_cleared(void) {
    memset(wanted.cares, 0, LISTED * sizeof wanted.cares[0]);
    memset(wanted.values, 0, LISTED * sizeof wanted.values[0]);
    memset(wanted.sizes, 0, LISTED * sizeof wanted.sizes[0]);
    memset(wanted.cycle, 255, CYCLE);
}

static void want_class(size_t k, uint32_t care, uint32_t value, uint64_t size) {
    wanted.cares[k] = care;
    wanted.values[k] = value;
    wanted.sizes[k] = size;
}

// ---- the comparison

static int checks, failures;

// Whether two lists differ, and where they do a line that says so.
static int list_differs(const char *call, const struct file *file, const char *what, const char *list, const void *is,
                        const void *must, size_t size, size_t entry) {
    const uint8_t *a = is, *b = must;
    for (size_t k = 0; k < size; k++)
        if (a[k] != b[k]) {
            printf("calls: %s of %s, %s: %s[%zu] is not what it must be\n", call, file->name, what, list, k / entry);
            return 1;
        }
    return 0;
}

#define DIFFERS(list) \
    list_differs(call, file, what, #list, got.list, wanted.list, sizeof got.list, sizeof got.list[0])

static void check(const char *call, const struct file *file, const char *what) {
    int wrong = got.number != wanted.number;
    if (wrong)
        printf("calls: %s of %s, %s: returned %u and must return %u\n", call, file->name, what, (unsigned)got.number,
               (unsigned)wanted.number);
    wrong |= DIFFERS(out) | DIFFERS(cares) | DIFFERS(values) | DIFFERS(sizes) | DIFFERS(cycle);
    checks++;
    failures += wrong;
}

static void call_read(const struct file *file, const char *what, size_t out_len) {
    got.number = lanecompass_read(file->bytes, file->length, got.out, out_len);
    check("read", file, what);
}

static void call_judge(const struct file *file, const char *what, struct lengths lent) {
    got.number = lanecompass_judge(file->bytes, file->length, got.cares, lent.cares, got.values, lent.values, got.sizes,
                                   lent.sizes, got.cycle, lent.cycle, got.out, lent.out);
    check("judge", file, what);
}

static void call_walk(const struct file *file, const char *what, uint64_t header, uint8_t start, size_t out_len) {
    got.number = lanecompass_walk(file->bytes, file->length, header, start, got.out, out_len);
    check("walk", file, what);
}

// ---- the checks

static void check_read(void) {
    want(0, FIGURES_OF(3, 2, 3, 0, 0, 0));
    call_read(&case_c, "six figures", FIGURES);
    want(0, FIGURES_OF(3, 2, 3, 0, 0, 0));
    call_read(&case_c, "more than six figures lent", FIGURES + PAST);
    want(0, FIGURES_OF(10, 1, 10, 0, 0, 0));
    call_read(&case_n, "too many classes are nothing to read", FIGURES);
    want_refusal(9, 5);
    call_read(&case_i, "its refusal", FIGURES + PAST);
    want_refusal(3, 0);
    call_read(&empty, "its refusal", FIGURES);
}

static void check_walk(void) {
    enum { DELIVERED, DROPPED, CIRCLING };
    want(0, FIGURES_OF(CIRCLING, 1, 2, 0, 0, 0));
    call_walk(&case_c, "101 from 1", 5, 1, FIGURES);
    want(0, FIGURES_OF(DROPPED, 1, 1, 0, 0, 0));
    call_walk(&case_c, "110 from 0", 6, 0, FIGURES);
    want(0, FIGURES_OF(DROPPED, 0, 0, 0, 0, 0));
    call_walk(&case_c, "000 from 0", 0, 0, FIGURES + PAST);
    want(0, FIGURES_OF(DELIVERED, 1, 1, 0, 0, 0));
    call_walk(&delivering, "1 from 0", 1, 0, FIGURES);
    want(0, FIGURES_OF(DROPPED, 0, 0, 0, 0, 0));
    call_walk(&wide, "the greatest header", 0xFFFFFFFF, 0, FIGURES);
}

static void check_walk_refusals(void) {
    want_refusal(14, 0);
    call_walk(&case_c, "header 8", 8, 0, FIGURES + PAST);
    want_refusal(14, 0);
    call_walk(&case_c, "a header whose low bits are 101", (1ull << 63) + 5, 1, FIGURES);
    want_refusal(14, 0);
    call_walk(&wide, "header 2^32", 1ull << 32, 0, FIGURES);
    want_refusal(15, 0);
    call_walk(&case_c, "start 2", 5, 2, FIGURES + PAST);
    want_refusal(15, 0);
    call_walk(&case_c, "start 255", 7, 255, FIGURES);
    want_refusal(14, 0);
    call_walk(&case_c, "14 before 15", 8, 2, FIGURES);
    want_refusal(9, 5);
    call_walk(&case_i, "the file before 14 and 15", 8, 2, FIGURES);
    want_refusal(3, 0);
    call_walk(&empty, "the file before 14 and 15", 8, 2, FIGURES);
}

static void want_c(void) {
    want(0, FIGURES_OF(3, 2, 3, 3, 1, 4));
    want_cleared();
    want_class(0, 0, 0, 4);
    want_class(1, 4, 4, 2);
    want_class(2, 6, 6, 2);
    wanted.cycle[0] = 0;
    wanted.cycle[1] = 1;
}

static void want_d(void) {
    want(0, FIGURES_OF(3, 2, 3, 2, 0, 0));
    want_cleared();
    want_class(0, 0, 0, 4);
    want_class(1, 4, 4, 4);
}

static void check_judge(void) {
    want_c();
    call_judge(&case_c, "lists of the least length", enough);
    want_c();
    call_judge(&case_c, "longer lists", longer);
    want_d();
    call_judge(&case_d, "lists of the least length", enough);
    want_d();
    call_judge(&case_d, "longer lists", longer);
    want_refusal(12, 0);
    want_cleared();
    call_judge(&case_n, "lists of the least length", enough);
    want_refusal(12, 0);
    want_cleared();
    call_judge(&case_n, "longer lists", longer);
    want_refusal(9, 5);
    call_judge(&case_i, "longer lists, as they were", longer);
    want_refusal(3, 0);
    call_judge(&empty, "longer lists, as they were", longer);
}

static void check_short_lists(const struct file *file) {
    want_refusal(13, 0);
    call_judge(file, "1,023 care masks", (struct lengths){1023, LISTED, LISTED, CYCLE, FIGURES});
    want_refusal(13, 0);
    call_judge(file, "1,023 values", (struct lengths){LISTED, 1023, LISTED, CYCLE, FIGURES});
    want_refusal(13, 0);
    call_judge(file, "1,023 sizes", (struct lengths){LISTED, LISTED, 1023, CYCLE, FIGURES});
    want_refusal(13, 0);
    call_judge(file, "a cycle of 63", (struct lengths){LISTED, LISTED, LISTED, 63, FIGURES});
    want_refusal(13, 0);
    call_judge(file, "no entry but the figures", (struct lengths){0, 0, 0, 0, FIGURES + PAST});
}

static void check_short_out(const struct file *file, const char *what, size_t out_len) {
    want_untouched(255);
    call_read(file, what, out_len);
    want_untouched(255);
    call_judge(file, what, (struct lengths){LISTED, LISTED, LISTED, CYCLE, out_len});
    want_untouched(255);
    call_walk(file, what, 5, 1, out_len);
}

// 255 comes before 13, 14 and 15.
static void check_short_out_first(void) {
    want_untouched(255);
    call_judge(&case_c, "five figures and a cycle of 63", (struct lengths){LISTED, LISTED, LISTED, 63, 5});
    want_untouched(255);
    call_walk(&case_c, "five figures, header 8 and start 2", 8, 2, 5);
}

int main(void) {
    check_read();
    check_walk();
    check_walk_refusals();
    check_judge();
    check_short_lists(&case_c);
    check_short_lists(&case_i);
    check_short_lists(&case_n);
    check_short_out(&case_c, "five figures", 5);
    check_short_out(&case_c, "no figure", 0);
    check_short_out(&case_i, "five figures", 5);
    check_short_out(&case_n, "five figures", 5);
    check_short_out_first();
    if (failures != 0) {
        printf("calls: %d of %d checks FAILED\n", failures, checks);
        return 1;
    }
    printf("calls: %d checks of read, judge and walk, all as they must be\n", checks);
    return 0;
}
