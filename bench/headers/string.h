// What the C programs of this repository use of C's <string.h>.
#pragma once
#include <stddef.h>
void *memmove(void *, const void *, size_t);
void *memset(void *, int, size_t);
int memcmp(const void *, const void *, size_t);
