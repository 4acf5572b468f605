#ifndef MEMCAD_STRING_H
#define MEMCAD_STRING_H
#include <stddef.h>
size_t strlen(const char *text);
int strcmp(const char *left, const char *right);
int strncmp(const char *left, const char *right, size_t count);
char *strdup(const char *text);
char *strncpy(char *to, const char *from, size_t count);
void *memcpy(void *to, const void *from, size_t count);
void *memmove(void *to, const void *from, size_t count);
void *memset(void *block, int byte, size_t count);
#endif
