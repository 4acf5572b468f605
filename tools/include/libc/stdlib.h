#ifndef MEMCAD_STDLIB_H
#define MEMCAD_STDLIB_H
#include <stddef.h>
#define EXIT_SUCCESS 0
#define EXIT_FAILURE 1
#define RAND_MAX 2147483647
void *malloc(size_t size);
void *calloc(size_t count, size_t size);
void *realloc(void *block, size_t size);
void free(void *block);
void exit(int status);
void _Exit(int status);
void abort(void);
int rand(void);
void srand(unsigned seed);
int abs(int number);
long labs(long number);
int atoi(const char *text);
long atol(const char *text);
double atof(const char *text);
char *getenv(const char *name);
#endif
