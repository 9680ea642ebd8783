/* Part of C99's stdlib.h, for the kit's clang, which comes without headers. The functions are glibc's. */
#ifndef KIT_STDLIB_H
#define KIT_STDLIB_H
#include <stddef.h>
void *calloc(size_t count, size_t size);
void free(void *block);
char *getenv(const char *name);
#endif
