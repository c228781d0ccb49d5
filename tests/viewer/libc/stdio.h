/* What calls.c uses of C's <stdio.h>: the toolchain has a C compiler and the C library, and no headers. */
#ifndef VIEWER_STDIO_H
#define VIEWER_STDIO_H

int printf(const char *format, ...) __attribute__((format(printf, 1, 2)));

#endif
