#ifndef KIT_STDLIB_H
#define KIT_STDLIB_H
#include <stddef.h>
void exit(int status) __attribute__((noreturn));
unsigned long strtoul(const char *text, char **end, int base);
unsigned long long strtoull(const char *text, char **end, int base);
void abort(void) __attribute__((noreturn));
void *malloc(size_t count);
void *calloc(size_t count, size_t size);
void free(void *memory);
void qsort(void *items, size_t count, size_t size, int (*order)(const void *, const void *));
#endif
