#ifndef CHECKS_STDLIB_H
#define CHECKS_STDLIB_H

#ifndef NULL
#define NULL ((void *)0)
#endif

typedef unsigned long size_t;

void *malloc(size_t size);
void *realloc(void *place, size_t size);
void free(void *place);
unsigned long strtoul(const char *text, char **end, int base);

#endif
