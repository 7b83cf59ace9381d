// The three calls of lanecompass.h as bench/plain.c gives them, in plain C with no proofs.
#pragma once
#include <stddef.h>
#include <stdint.h>

uint8_t plain_read(const uint8_t *file, size_t file_len, uint64_t *out, size_t out_len);

uint8_t plain_judge(const uint8_t *file, size_t file_len, uint32_t *cares, size_t cares_len,
                    uint32_t *values, size_t values_len, uint64_t *sizes, size_t sizes_len,
                    uint8_t *cycle, size_t cycle_len, uint64_t *out, size_t out_len);

uint8_t plain_walk(const uint8_t *file, size_t file_len, uint64_t header, uint8_t start,
                   uint64_t *out, size_t out_len);

// Inner steps, counted in a build with -DCOUNT_STEPS: entries looked at or moved while sifting; entries looked at while the
// least header is searched; rules compared with a query; hops made while a row's cycle is searched.
struct steps {
    uint64_t sift, least, rules, hops;
};
extern struct steps plain_steps;
