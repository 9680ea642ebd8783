/* Part of C99's stdio.h, for the kit's clang, which comes without headers. The functions are glibc's. */
#ifndef KIT_STDIO_H
#define KIT_STDIO_H
#include <stddef.h>
typedef struct _IO_FILE FILE;
extern FILE *stdin, *stdout, *stderr;
int printf(const char *form, ...);
int fprintf(FILE *to, const char *form, ...);
FILE *fopen(const char *path, const char *mode);
size_t fread(void *into, size_t size, size_t count, FILE *from);
size_t fwrite(const void *from, size_t size, size_t count, FILE *to);
char *fgets(char *into, int size, FILE *from);
int ferror(FILE *file);
int fflush(FILE *to);
int fclose(FILE *file);
#endif
