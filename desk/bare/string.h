/* See README.md. */
#ifndef BARE_STRING_H
#define BARE_STRING_H
#include <stddef.h>
size_t strlen(const char *);
char *strchr(const char *, int);
char *strcpy(char *, const char *);
int strcmp(const char *, const char *);
void *memset(void *, int, size_t);
void *memcpy(void *, const void *, size_t);
int memcmp(const void *, const void *, size_t);
#endif
