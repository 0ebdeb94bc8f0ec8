#ifndef STANDARD_STDIO_H
#define STANDARD_STDIO_H
#include <stddef.h>
#define EOF (-1)
int printf(const char *format, ...);
int getchar(void);
int putchar(int c);
#endif
