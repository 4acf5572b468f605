#ifndef MEMCAD_STDIO_H
#define MEMCAD_STDIO_H
#include <stddef.h>
#define EOF (-1)
typedef struct memcad_file FILE;
extern FILE *stdin;
extern FILE *stdout;
extern FILE *stderr;
int printf(const char *format, ...);
int fprintf(FILE *stream, const char *format, ...);
int puts(const char *text);
int fputs(const char *text, FILE *stream);
int putchar(int character);
int fputc(int character, FILE *stream);
int putc(int character, FILE *stream);
int getchar(void);
int fgetc(FILE *stream);
int getc(FILE *stream);
int fflush(FILE *stream);
void perror(const char *text);
char *fgets(char *line, int size, FILE *stream);
int snprintf(char *line, size_t size, const char *format, ...);
int sprintf(char *line, const char *format, ...);
int scanf(const char *format, ...);
#endif
