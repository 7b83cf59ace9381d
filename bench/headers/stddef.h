// What the C programs of this repository use of C's <stddef.h>.
#pragma once
typedef __SIZE_TYPE__ size_t;
#define NULL ((void *)0)
