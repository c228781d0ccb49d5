/* What the viewer's header and calls.c use of C's <stddef.h>: the toolchain has a C compiler and the C library, and no headers. */
#ifndef VIEWER_STDDEF_H
#define VIEWER_STDDEF_H

typedef __SIZE_TYPE__ size_t;
#define NULL ((void *)0)

#endif
