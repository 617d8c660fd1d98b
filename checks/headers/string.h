#ifndef CHECKS_STRING_H
#define CHECKS_STRING_H

#include <stdlib.h>

void *memcpy(void *to, const void *from, size_t size);
void *memset(void *to, int byte, size_t size);
int memcmp(const void *a, const void *b, size_t size);
int strcmp(const char *a, const char *b);
size_t strlen(const char *text);
size_t strcspn(const char *text, const char *bytes);
size_t strspn(const char *text, const char *bytes);
char *strtok(char *text, const char *bytes);

#endif
