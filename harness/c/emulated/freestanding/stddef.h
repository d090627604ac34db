/* stddef.h: what hop.h needs of it, from the compiler's own names. The kit's clang comes without headers. */
#ifndef FREESTANDING_STDDEF_H
#define FREESTANDING_STDDEF_H

typedef __SIZE_TYPE__ size_t;
#define NULL ((void *)0)

#endif
