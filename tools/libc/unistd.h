#ifndef _UNISTD_H
#define _UNISTD_H

#include <stddef.h>

ptrdiff_t write(int file, const void *from, size_t count);
void _exit(int status) __attribute__((noreturn));

#endif
