#ifndef _STDLIB_H
#define _STDLIB_H

#include <stddef.h>

#define EXIT_SUCCESS 0
#define EXIT_FAILURE 1

void *malloc(size_t size);
void *realloc(void *old, size_t size);
void free(void *old);
unsigned long strtoul(const char *restrict text, char **restrict end, int base);
void exit(int status) __attribute__((noreturn));

#endif
