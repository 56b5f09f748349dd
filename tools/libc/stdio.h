#ifndef _STDIO_H
#define _STDIO_H

#include <stddef.h>

typedef struct _IO_FILE FILE;
extern FILE *stdin;
extern FILE *stdout;
extern FILE *stderr;
#define EOF (-1)

FILE *fopen(const char *restrict path, const char *restrict mode);
int fclose(FILE *file);
int fflush(FILE *file);
int ferror(FILE *file);
int getc(FILE *file);
size_t fread(void *restrict into, size_t size, size_t count, FILE *restrict file);
size_t fwrite(const void *restrict from, size_t size, size_t count, FILE *restrict file);
char *fgets(char *restrict line, int size, FILE *restrict file);
void perror(const char *what);
int printf(const char *restrict format, ...) __attribute__((format(printf, 1, 2)));
int fprintf(FILE *restrict file, const char *restrict format, ...) __attribute__((format(printf, 2, 3)));
int snprintf(char *restrict into, size_t size, const char *restrict format, ...) __attribute__((format(printf, 3, 4)));

#endif
