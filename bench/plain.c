// The algorithm of the library in plain C, with no proofs: bench/run compares its speed with the library's.
// It gives the same answers through the same calls (include/lanecompass.h says what they are).
#include "plain.h"
#include <string.h>

enum { NODES = 64, RULES = 256, CLASSES = 512, LISTED = 1024, FIGURES = 6 };
enum { DROP = 64, DELIVER = 65 };

struct steps plain_steps;
#ifdef COUNT_STEPS
#define STEPS(loop, k) (plain_steps.loop += (k))
#else
#define STEPS(loop, k) ((void)0)
#endif

// ---- patterns

struct pattern {
    uint32_t care, value;
};

static uint32_t low_ones(uint8_t width) { return (uint32_t)((1ull << width) - 1); }

static int within(struct pattern p, struct pattern q) {
    return (p.care & q.care) == q.care && (p.value & q.care) == q.value;
}

static int agrees(struct pattern p, struct pattern q) {
    uint32_t both = p.care & q.care;
    return (p.value & both) == (q.value & both);
}

static struct pattern common(struct pattern p, struct pattern q) {
    return (struct pattern){p.care | q.care, p.value | q.value};
}

static uint64_t held(struct pattern p, uint8_t width) {
    return 1ull << (width - __builtin_popcount(p.care));
}

// ---- the file

// The working arrays, in file order. The tables of the nodes stand in the file from begins[v] + 2 to begins[v + 1].
struct network {
    uint8_t width, nodes;
    size_t rules;
    uint32_t cares[RULES], values[RULES];
    uint8_t actions[RULES];
    size_t firsts[NODES + 1], begins[NODES + 1];
};

struct refusal {
    uint8_t number; // 0 for none
    size_t place;
};

static const struct refusal none = {0, 0};

static struct refusal refused(uint8_t number, size_t place) { return (struct refusal){number, place}; }

struct rule {
    struct pattern pattern;
    uint8_t action;
};

static uint32_t number_at(const uint8_t *s) {
    return (uint32_t)s[0] << 24 | (uint32_t)s[1] << 16 | (uint32_t)s[2] << 8 | s[3];
}

// The length of a kind's body, or -1 where there is no such kind.
static int body_of(uint8_t kind) {
    switch (kind) {
    case 0x01: return 2;
    case 0x02: return 1;
    case 0x03: case 0x13: return 9;
    case 0x04: case 0x05: case 0x14: case 0x15: return 8;
    case 0x7F: return 0;
    default: return -1;
    }
}

// The rule whose whole record stands at s.
static struct rule rule_at(const uint8_t *s, uint8_t width) {
    uint32_t mask = number_at(s + 1);
    uint32_t care = s[0] >= 0x13 ? low_ones(width) ^ mask : mask;
    uint8_t action = (s[0] & 15) == 3 ? s[9] : (s[0] & 15) == 4 ? DROP : DELIVER;
    return (struct rule){{care, number_at(s + 5)}, action};
}

static struct refusal take_network(const uint8_t *s, struct network *net) {
    net->width = s[1];
    net->nodes = s[2];
    if (s[1] < 1 || s[1] > 32)
        return refused(4, 0);
    if (s[2] < 1 || s[2] > NODES)
        return refused(5, 0);
    return none;
}

static struct refusal take_rule(const uint8_t *file, size_t at, struct network *net) {
    struct rule r = rule_at(file + at, net->width);
    uint32_t most = low_ones(net->width), mask = number_at(file + at + 1);
    if (mask > most || r.pattern.value > most)
        return refused(8, at);
    if ((r.pattern.value & r.pattern.care) != r.pattern.value)
        return refused(9, at);
    if (r.action < DROP ? r.action >= net->nodes : (file[at] & 15) == 3)
        return refused(7, at);
    net->cares[net->rules] = r.pattern.care;
    net->values[net->rules] = r.pattern.value;
    net->actions[net->rules] = r.action;
    net->rules++;
    return none;
}

// Whether a record of a known kind stands where it may.
static int in_place(uint8_t kind, size_t at, size_t tables, const struct network *net) {
    if (kind == 0x01 || at == 0)
        return kind == 0x01 && at == 0;
    if (kind == 0x02)
        return tables < net->nodes;
    if (kind == 0x7F)
        return tables == net->nodes;
    return tables > 0;
}

static struct refusal fill(const uint8_t *file, size_t len, struct network *net) {
    size_t at = 0, tables = 0;
    net->rules = 0;
    for (;;) {
        if (at >= len)
            return refused(3, len);
        uint8_t kind = file[at];
        int body = body_of(kind);
        if (body < 0)
            return refused(1, at);
        if (!in_place(kind, at, tables, net))
            return refused(2, at);
        if (body >= 8 && net->rules == RULES)
            return refused(10, at);
        if (len - at <= (size_t)body)
            return refused(3, at);
        struct refusal fault = none;
        if (kind == 0x01) {
            fault = take_network(file, net);
        } else if (kind == 0x02) {
            if (file[at + 1] != tables)
                return refused(6, at);
            net->firsts[tables] = net->rules;
            net->begins[tables++] = at;
        } else if (kind == 0x7F) {
            net->firsts[tables] = net->rules;
            net->begins[tables] = at;
            return at + 1 < len ? refused(11, at + 1) : none;
        } else {
            fault = take_rule(file, at, net);
        }
        if (fault.number)
            return fault;
        at += 1 + (size_t)body;
    }
}

// The action of the first rule of a table's part that contains the query.
static uint8_t lookup(const uint8_t *part, size_t len, uint8_t width, struct pattern query) {
    for (size_t at = 0; at < len; at += 1 + (size_t)body_of(part[at])) {
        STEPS(rules, 1);
        struct rule r = rule_at(part + at, width);
        if (within(query, r.pattern))
            return r.action;
    }
    return DROP;
}

// ---- the class list: three lists, ordered by care mask, then value

struct list {
    uint32_t *cares, *values;
    uint64_t *sizes;
};

static struct pattern entry(const struct list *l, size_t i) {
    return (struct pattern){l->cares[i], l->values[i]};
}

static uint64_t within_sum(const struct list *l, size_t from, size_t n, struct pattern p) {
    uint64_t sum = 0;
    for (size_t j = from; j < n; j++) {
        STEPS(sift, 1);
        if (within(entry(l, j), p))
            sum += l->sizes[j];
    }
    return sum;
}

static void shift(struct list *l, size_t from, size_t n, size_t to) {
    STEPS(sift, n - from);
    memmove(l->cares + to, l->cares + from, (n - from) * sizeof *l->cares);
    memmove(l->values + to, l->values + from, (n - from) * sizeof *l->values);
    memmove(l->sizes + to, l->sizes + from, (n - from) * sizeof *l->sizes);
}

// k more headers of pattern p among the entries from `from` on; the new number of entries.
static size_t tally(struct list *l, size_t from, size_t n, struct pattern p, uint64_t k) {
    size_t i = from;
    while (i < n && (l->cares[i] < p.care || (l->cares[i] == p.care && l->values[i] < p.value))) {
        STEPS(sift, 1);
        i++;
    }
    if (i < n && l->cares[i] == p.care && l->values[i] == p.value) {
        l->sizes[i] += k;
        return n;
    }
    shift(l, i, n, i + 1);
    l->cares[i] = p.care;
    l->values[i] = p.value;
    l->sizes[i] = k;
    return n + 1;
}

// Entry i is divided by filter f; the new number of entries.
static size_t sift_one(struct list *l, size_t i, size_t n, uint8_t width, struct pattern f) {
    struct pattern e = entry(l, i);
    if (!agrees(e, f) || within(e, f))
        return n;
    struct pattern r = common(e, f);
    uint64_t inside = held(r, width) - within_sum(l, i + 1, n, r);
    if (inside == 0)
        return n;
    if (inside == l->sizes[i]) {
        shift(l, i + 1, n, i);
        return tally(l, i, n - 1, r, inside);
    }
    l->sizes[i] -= inside;
    return tally(l, i + 1, n, r, inside);
}

static size_t take_in(struct list *l, size_t n, uint8_t width, struct pattern f) {
    for (size_t i = n; i-- > 0;)
        n = sift_one(l, i, n, width, f);
    return n;
}

// Whether filter k is the common part of the earlier filters that contain it: it then divides no class.
static int adds_nothing(const struct network *net, size_t k) {
    struct pattern f = {net->cares[k], net->values[k]};
    uint32_t care = 0;
    for (size_t i = 0; i < k; i++) {
        struct pattern g = {net->cares[i], net->values[i]};
        if (within(f, g))
            care |= g.care;
    }
    return care == f.care;
}

static void clear(struct list *l, size_t from) {
    memset(l->cares + from, 0, (LISTED - from) * sizeof *l->cares);
    memset(l->values + from, 0, (LISTED - from) * sizeof *l->values);
    memset(l->sizes + from, 0, (LISTED - from) * sizeof *l->sizes);
}

// The class count, or 0 for more than 512.
static size_t build(const struct network *net, struct list *l) {
    size_t n = 1;
    l->cares[0] = l->values[0] = 0;
    l->sizes[0] = 1ull << net->width;
    for (size_t k = 0; k < net->rules && n <= CLASSES; k++)
        if (!adds_nothing(net, k))
            n = take_in(l, n, net->width, (struct pattern){net->cares[k], net->values[k]});
    if (n > CLASSES)
        n = 0;
    clear(l, n);
    return n;
}

// ---- the verdict

// The next node of each node for the query; 64 and more is an end.
static void fill_row(const uint8_t *file, const struct network *net, struct pattern query, uint8_t *row) {
    for (size_t v = 0; v < net->nodes; v++) {
        size_t begin = net->begins[v] + 2;
        row[v] = lookup(file + begin, net->begins[v + 1] - begin, net->width, query);
    }
}

static int returns_to(const uint8_t *row, size_t nodes, size_t v) {
    size_t at = v;
    for (size_t k = 0; k < nodes; k++) {
        STEPS(hops, 1);
        at = row[at];
        if (at >= nodes)
            return 0;
        if (at == v)
            return 1;
    }
    return 0;
}

// The lowest node on a cycle, or the node count.
static size_t lowest_on_cycle(const uint8_t *row, size_t nodes) {
    size_t v = 0;
    while (v < nodes && !returns_to(row, nodes, v))
        v++;
    return v;
}

// How many headers of looping classes lie within the prefix. `counts` has each class's own number.
static uint64_t looping_within(const struct list *l, size_t n, uint8_t width, struct pattern prefix,
                               const uint8_t *loops, uint64_t *counts) {
    uint64_t total = 0;
    for (size_t i = n; i-- > 0;) {
        struct pattern p = entry(l, i);
        counts[i] = 0;
        if (!agrees(p, prefix))
            continue;
        uint64_t inner = 0;
        for (size_t j = i + 1; j < n; j++) {
            STEPS(least, 1);
            if (within(entry(l, j), p))
                inner += counts[j];
        }
        counts[i] = held(common(p, prefix), width) - inner;
        if (loops[i])
            total += counts[i];
    }
    return total;
}

// The least header of a looping class, from the top bit down.
static uint32_t least(const struct list *l, size_t n, uint8_t width, const uint8_t *loops) {
    uint64_t counts[CLASSES];
    struct pattern prefix = {0, 0};
    for (uint8_t b = width; b-- > 0;) {
        prefix.care |= 1u << b;
        if (looping_within(l, n, width, prefix, loops, counts) == 0)
            prefix.value |= 1u << b;
    }
    return prefix.value;
}

static void write_cycle(const uint8_t *row, size_t nodes, uint8_t *cycle) {
    size_t first = lowest_on_cycle(row, nodes), at = first, k = 0;
    do {
        cycle[k++] = (uint8_t)at;
        at = row[at];
    } while (at != first);
}

// Whether there is a loop, and then its header and cycle.
static int decide(const uint8_t *file, const struct network *net, const struct list *l, size_t n,
                  uint8_t *cycle, uint32_t *header) {
    uint8_t loops[CLASSES], row[NODES];
    int any = 0;
    for (size_t i = 0; i < n; i++) {
        fill_row(file, net, entry(l, i), row);
        loops[i] = lowest_on_cycle(row, net->nodes) < net->nodes;
        any |= loops[i];
    }
    if (!any)
        return 0;
    *header = least(l, n, net->width, loops);
    fill_row(file, net, (struct pattern){low_ones(net->width), *header}, row);
    write_cycle(row, net->nodes, cycle);
    return 1;
}

// ---- the calls

static uint8_t answer(uint8_t number, uint64_t *out, uint64_t a, uint64_t b, uint64_t c, uint64_t d,
                      uint64_t e, uint64_t f) {
    uint64_t figures[FIGURES] = {a, b, c, d, e, f};
    for (size_t i = 0; i < FIGURES; i++)
        out[i] = figures[i];
    return number;
}

static uint8_t refuse(struct refusal r, uint64_t *out) {
    return answer(r.number, out, r.place, 0, 0, 0, 0, 0);
}

uint8_t plain_read(const uint8_t *file, size_t file_len, uint64_t *out, size_t out_len) {
    struct network net;
    if (out_len < FIGURES)
        return 255;
    struct refusal r = fill(file, file_len, &net);
    return r.number ? refuse(r, out) : answer(0, out, net.width, net.nodes, net.rules, 0, 0, 0);
}

uint8_t plain_judge(const uint8_t *file, size_t file_len, uint32_t *cares, size_t cares_len,
                    uint32_t *values, size_t values_len, uint64_t *sizes, size_t sizes_len,
                    uint8_t *cycle, size_t cycle_len, uint64_t *out, size_t out_len) {
    struct network net;
    struct list list = {cares, values, sizes};
    uint32_t header = 0;
    if (out_len < FIGURES)
        return 255;
    if (cares_len < LISTED || values_len < LISTED || sizes_len < LISTED || cycle_len < NODES)
        return refuse(refused(13, 0), out);
    struct refusal r = fill(file, file_len, &net);
    if (r.number)
        return refuse(r, out);
    size_t n = build(&net, &list);
    memset(cycle, 255, NODES);
    if (n == 0)
        return refuse(refused(12, 0), out);
    int loop = decide(file, &net, &list, n, cycle, &header);
    return answer(0, out, net.width, net.nodes, net.rules, n, (uint64_t)loop, header);
}

uint8_t plain_walk(const uint8_t *file, size_t file_len, uint64_t header, uint8_t start,
                   uint64_t *out, size_t out_len) {
    struct network net;
    uint8_t met[NODES] = {0};
    if (out_len < FIGURES)
        return 255;
    struct refusal r = fill(file, file_len, &net);
    if (r.number)
        return refuse(r, out);
    if (header >> net.width)
        return refuse(refused(14, 0), out);
    if (start >= net.nodes)
        return refuse(refused(15, 0), out);
    size_t v = start;
    for (uint64_t hops = 0; hops <= net.nodes; hops++) {
        if (met[v])
            return answer(0, out, 2, v, hops, 0, 0, 0);
        met[v] = 1;
        uint8_t action = DROP;
        for (size_t i = net.firsts[v]; i < net.firsts[v + 1]; i++)
            if (((uint32_t)header & net.cares[i]) == net.values[i]) {
                action = net.actions[i];
                break;
            }
        if (action >= DROP)
            return answer(0, out, action == DROP, v, hops, 0, 0, 0);
        v = action;
    }
    return refuse(refused(16, 0), out);
}
