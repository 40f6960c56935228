/* See README.md. */
#ifndef BARE_STDLIB_H
#define BARE_STDLIB_H
#include <stddef.h>
void *malloc(size_t);
void free(void *);
void exit(int) __attribute__((noreturn));
unsigned long strtoul(const char *, char **, int);
#endif
