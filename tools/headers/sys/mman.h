/* For tools/link-c: the kit's compiler comes without headers. What the C programs here use of this one, for Linux. */
#pragma once
#include <stddef.h>
#define PROT_NONE 0
#define PROT_READ 1
#define PROT_WRITE 2
#define MAP_PRIVATE 2
#define MAP_ANONYMOUS 32
#define MAP_FAILED ((void *)-1)
void *mmap(void *at, size_t count, int access, int flags, int file, long from);
int mprotect(void *at, size_t count, int access);
