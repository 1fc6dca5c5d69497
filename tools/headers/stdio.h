/* For tools/link-c: the kit's compiler comes without headers. What the C programs here use of this one. */
#pragma once
#include <stddef.h>
int printf(const char *format, ...);
int getchar(void);
#define EOF (-1)
