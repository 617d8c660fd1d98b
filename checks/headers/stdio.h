#ifndef CHECKS_STDIO_H
#define CHECKS_STDIO_H

#include <stdlib.h>

typedef struct file FILE;

extern FILE *stdin;
extern FILE *stderr;

int fclose(FILE *stream);
int ferror(FILE *stream);
int fflush(FILE *stream);
char *fgets(char *line, int size, FILE *stream);
FILE *fopen(const char *path, const char *mode);
int fprintf(FILE *stream, const char *format, ...);
size_t fread(void *place, size_t size, size_t count, FILE *stream);
size_t fwrite(const void *place, size_t size, size_t count, FILE *stream);
int printf(const char *format, ...);
int putchar(int byte);
int puts(const char *text);
int rename(const char *from, const char *to);
int snprintf(char *text, size_t size, const char *format, ...);

#endif
