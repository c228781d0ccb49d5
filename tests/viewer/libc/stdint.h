/* What the viewer's header and calls.c use of C's <stdint.h>: the toolchain has a C compiler and the C library, and no headers. */
#ifndef VIEWER_STDINT_H
#define VIEWER_STDINT_H

typedef __UINT8_TYPE__ uint8_t;
typedef __UINT32_TYPE__ uint32_t;
typedef __UINT64_TYPE__ uint64_t;

#endif
