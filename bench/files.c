// Writes the network files that bench/run measures, from fixed seeds, into the folder of the first argument; or climbs
// (files DIR climb WHAT SEED ROUNDS) from random files towards ones that take more inner steps, and writes the best.
// It counts classes and steps with the plain C version, so it includes it whole.
#include "plain.c"
#include <stdio.h>

static uint64_t state;

static uint32_t random_below(uint32_t n) {
    state ^= state << 13;
    state ^= state >> 7;
    state ^= state << 17;
    return (uint32_t)((state * 0x2545F4914F6CDD1Dull >> 33) % n);
}

// ---- a network to be written

struct draft {
    uint8_t width, nodes;
    size_t rules;
    uint8_t node[RULES], action[RULES]; // in node order
    struct pattern filter[RULES];
};

static void add(struct draft *d, uint8_t node, struct pattern filter, uint8_t action) {
    d->node[d->rules] = node;
    d->filter[d->rules] = filter;
    d->action[d->rules++] = action;
}

static size_t put_number(uint8_t *s, uint32_t x) {
    for (int i = 0; i < 4; i++)
        s[i] = (uint8_t)(x >> (24 - 8 * i));
    return 4;
}

static size_t encode(const struct draft *d, uint8_t *file) {
    size_t at = 0, i = 0;
    file[at++] = 0x01;
    file[at++] = d->width;
    file[at++] = d->nodes;
    for (uint8_t v = 0; v < d->nodes; v++) {
        file[at++] = 0x02;
        file[at++] = v;
        for (; i < d->rules && d->node[i] == v; i++) {
            file[at++] = d->action[i] < DROP ? 0x03 : d->action[i] == DROP ? 0x04 : 0x05;
            at += put_number(file + at, d->filter[i].care);
            at += put_number(file + at, d->filter[i].value);
            if (d->action[i] < DROP)
                file[at++] = d->action[i];
        }
    }
    file[at++] = 0x7F;
    return at;
}

static int unwritten; // 1 once a file could not be written

static void write_file(const char *dir, const char *name, const struct draft *d) {
    uint8_t file[4096];
    char path[4096];
    size_t len = encode(d, file), at = 0;
    for (; dir[at]; at++)
        path[at] = dir[at];
    path[at++] = '/';
    for (size_t i = 0; (path[at] = name[i]); i++)
        at++;
    FILE *f = fopen(path, "wb");
    if (!f || fwrite(file, 1, len, f) != len || fclose(f)) {
        fprintf(stderr, "cannot write %s\n", path);
        unwritten = 1;
    }
}

// The judgement of a draft; plain_steps has its steps.
static uint8_t judge(const struct draft *d, uint64_t *out) {
    static uint32_t cares[LISTED], values[LISTED];
    static uint64_t sizes[LISTED];
    uint8_t file[4096], cycle[NODES];
    plain_steps = (struct steps){0, 0, 0, 0};
    return plain_judge(file, encode(d, file), cares, LISTED, values, LISTED, sizes, LISTED, cycle, NODES, out,
                       FIGURES);
}

// ---- the families

// An action at a node: a third drop or deliver, the rest forward. Without loops a node forwards to later nodes alone.
static uint8_t some_action(uint8_t node, uint8_t nodes, int loops) {
    if (random_below(3) == 0 || (!loops && node + 1 == nodes))
        return random_below(2) ? DROP : DELIVER;
    return (uint8_t)(loops ? random_below(nodes) : node + 1 + random_below(nodes - node - 1u));
}

static struct pattern some_filter(uint32_t least_cared, uint32_t most_cared) {
    uint32_t cared = least_cared + random_below(most_cared - least_cared + 1), care = 0;
    while ((uint32_t)__builtin_popcount(care) < cared)
        care |= 1u << random_below(32);
    return (struct pattern){care, random_below(1u << 31) * 2 + random_below(2)};
}

// 256 rules over 16 nodes with filters at random, chosen so that the class count rises evenly to nearly 512.
static struct draft random_tables(uint64_t seed, int loops) {
    static uint32_t cares[LISTED], values[LISTED], tried_cares[LISTED], tried_values[LISTED];
    static uint64_t sizes[LISTED], tried_sizes[LISTED];
    struct draft d = {32, 16, 0, {0}, {0}, {{0, 0}}};
    size_t n = 1;
    state = seed;
    cares[0] = values[0] = 0;
    sizes[0] = 1ull << 32;
    while (d.rules < RULES) {
        struct list tried = {tried_cares, tried_values, tried_sizes};
        memmove(tried_cares, cares, sizeof cares);
        memmove(tried_values, values, sizeof values);
        memmove(tried_sizes, sizes, sizeof sizes);
        struct pattern f = some_filter(6, 20);
        f.value &= f.care;
        size_t m = take_in(&tried, n, 32, f);
        if (m > 2 * d.rules + 2)
            continue;
        n = m;
        memmove(cares, tried_cares, sizeof cares);
        memmove(values, tried_values, sizeof values);
        memmove(sizes, tried_sizes, sizeof sizes);
        uint8_t node = (uint8_t)(d.rules / 16);
        add(&d, node, f, some_action(node, 16, loops));
    }
    return d;
}

static struct pattern prefix_of(uint32_t address, uint32_t length) {
    uint32_t care = length ? ~0u << (32 - length) : 0;
    return (struct pattern){care, address & care};
}

// 256 prefixes of 7 to 30 bits over 32 nodes, longest first in each table, over 40 addresses so that they nest.
static struct draft prefix_tables(uint64_t seed, int loops) {
    struct draft d = {32, 32, 0, {0}, {0}, {{0, 0}}};
    uint32_t addresses[40];
    state = seed;
    for (int i = 0; i < 40; i++)
        addresses[i] = random_below(1u << 31) * 2 + random_below(2);
    for (uint8_t v = 0; v < 32; v++)
        for (uint32_t k = 0; k < 8; k++)
            add(&d, v, prefix_of(addresses[random_below(40)], 28 - 3 * k + random_below(3)), some_action(v, 32, loops));
    return d;
}

// Case M of paper 01: nine filters, each caring for one bit.
static struct draft case_m(void) {
    struct draft d = {9, 1, 0, {0}, {0}, {{0, 0}}};
    for (int b = 0; b < 9; b++)
        add(&d, 0, (struct pattern){1u << b, 1u << b}, DROP);
    return d;
}

// 448 patterns that all hold the header 0, from ten filters; then, in what is common to them, 246 filters on six more bits,
// those with more cared bits first. Each of these agrees with all the patterns and lies within none, none is the common
// part of earlier ones, and only the first 64 add a class.
static struct draft worst_sifting(void) {
    static const uint32_t holding[10] = {0x001, 0x002, 0x004, 0x008, 0x010, 0x020, 0x040, 0x080, 0x101, 0x207};
    struct draft d = {32, 2, 0, {0}, {0}, {{0, 0}}};
    for (int i = 0; i < 10; i++)
        add(&d, 0, (struct pattern){holding[i], 0}, DROP);
    for (int cared = 6; cared >= 0; cared--)
        for (uint32_t care = 0; care < 64; care++)
            for (uint32_t value = 0; value < 64; value++)
                if (__builtin_popcount(care) == cared && (value & care) == value && d.rules < RULES)
                    add(&d, 1, (struct pattern){0x3FF | care << 10, value << 10}, 1);
    return d;
}

// Nine filters, each asking for a zero at one low bit, and the header 0 alone goes round: every pattern agrees with every
// prefix that is tried.
static struct draft worst_least(void) {
    struct draft d = {32, 2, 0, {0}, {0}, {{0, 0}}};
    add(&d, 0, (struct pattern){0x1FF, 0}, 1);
    for (int b = 0; b < 9; b++)
        add(&d, 0, (struct pattern){1u << b, 0}, DROP);
    add(&d, 1, (struct pattern){0, 0}, 0);
    return d;
}

// 64 nodes in a row that leads to a last one that forwards to itself, for each of 512 classes.
static struct draft worst_rounds(void) {
    struct draft d = {32, 64, 0, {0}, {0}, {{0, 0}}};
    for (uint8_t v = 0; v < 63; v++)
        add(&d, v, (struct pattern){0, 0}, v + 1);
    for (int b = 0; b < 9; b++)
        add(&d, 63, (struct pattern){1u << b, 0}, 63);
    add(&d, 63, (struct pattern){0, 0}, 63);
    return d;
}

// ---- climbing

static struct pattern changed_filter(const struct draft *d, size_t i) {
    struct pattern f = d->filter[i], g = d->filter[random_below((uint32_t)d->rules)];
    uint32_t bit = 1u << random_below(32);
    switch (random_below(6)) {
    case 0: return some_filter(1, 24);
    case 1: return (struct pattern){f.care ^ bit, f.value};
    case 2: return (struct pattern){f.care | bit, f.value ^ bit};
    case 3: return (struct pattern){g.care ^ bit, g.value};
    case 4: return (struct pattern){f.care | g.care, f.value | g.value};
    default: return (struct pattern){f.care & g.care, f.value};
    }
}

static struct draft changed(const struct draft *d) {
    struct draft e = *d;
    uint32_t changes = 1 + random_below(3);
    for (uint32_t k = 0; k < changes; k++) {
        size_t i = random_below((uint32_t)e.rules), j = random_below((uint32_t)e.rules);
        struct pattern f = e.filter[i];
        if (random_below(3)) {
            e.filter[i] = changed_filter(&e, i);
            e.filter[i].value &= e.filter[i].care;
        } else {
            e.filter[i] = e.filter[j];
            e.filter[j] = f;
        }
        e.action[i] = random_below(4) ? 0 : DROP;
    }
    return e;
}

// From `seed`, `rounds` changes to a random file of one node, each kept unless it takes fewer steps.
static struct draft climb(int least_header, uint64_t seed, uint64_t rounds) {
    struct draft best = random_tables(seed, 1);
    uint64_t out[FIGURES], most = 0;
    best.nodes = 1;
    for (size_t i = 0; i < RULES; i++)
        best.node[i] = best.action[i] = 0;
    state = seed;
    for (uint64_t k = 0; k < rounds; k++) {
        struct draft d = changed(&best);
        if (judge(&d, out))
            continue;
        uint64_t steps = least_header ? plain_steps.least : plain_steps.sift;
        if (steps >= most) {
            most = steps;
            best = d;
        }
    }
    return best;
}

// ---- the program

static void made(const char *dir, const char *name, struct draft d) {
    uint64_t out[FIGURES];
    uint8_t number = judge(&d, out);
    printf("%-14s rules %3zu classes %3llu %s  steps: sifting %8llu, least header %7llu, rules %6llu, hops %7llu\n", name,
           d.rules, (unsigned long long)out[3], number ? "refused" : out[4] ? "loop   " : "free   ",
           (unsigned long long)plain_steps.sift, (unsigned long long)plain_steps.least,
           (unsigned long long)plain_steps.rules, (unsigned long long)plain_steps.hops);
    write_file(dir, name, &d);
}

static uint64_t number_of(const char *word) {
    uint64_t n = 0;
    for (; *word >= '0' && *word <= '9'; word++)
        n = n * 10 + (uint64_t)(*word - '0');
    return n;
}

int main(int argc, char **argv) {
    if (argc == 6) {
        int least_header = argv[3][0] == 'l';
        made(argv[1], least_header ? "climbed-least" : "climbed-sift",
             climb(least_header, number_of(argv[4]), number_of(argv[5])));
        return unwritten;
    }
    if (argc != 2)
        return 2;
    made(argv[1], "random-loop", random_tables(1, 1));
    made(argv[1], "random-free", random_tables(2, 0));
    made(argv[1], "prefix-loop", prefix_tables(3, 1));
    made(argv[1], "prefix-free", prefix_tables(4, 0));
    made(argv[1], "case-m", case_m());
    made(argv[1], "worst-sift", worst_sifting());
    made(argv[1], "worst-least", worst_least());
    made(argv[1], "worst-rounds", worst_rounds());
    return unwritten;
}
