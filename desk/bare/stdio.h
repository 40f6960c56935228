/* See README.md. */
#ifndef BARE_STDIO_H
#define BARE_STDIO_H
#include <stddef.h>
typedef struct _IO_FILE FILE;
extern FILE *stdout;
extern FILE *stderr;
#define EOF (-1)
FILE *fopen(const char *, const char *);
int fclose(FILE *);
int fflush(FILE *);
int ferror(FILE *);
int getc(FILE *);
int printf(const char *, ...) __attribute__((format(printf, 1, 2)));
int fprintf(FILE *, const char *, ...) __attribute__((format(printf, 2, 3)));
int snprintf(char *, size_t, const char *, ...) __attribute__((format(printf, 3, 4)));
#endif
