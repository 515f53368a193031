#ifndef STDIO_H
#define STDIO_H
#include <stddef.h>
#define EOF (-1)
typedef struct _IO_FILE FILE;
extern FILE *stdin;
extern FILE *stdout;
int printf(const char *format, ...);
int getchar(void);
int putchar(int c);
int puts(const char *s);
int fflush(FILE *stream);
size_t fread(void *buffer, size_t size, size_t count, FILE *stream);
#endif
