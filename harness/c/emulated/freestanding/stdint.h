/* stdint.h: what hop.h needs of it, from the compiler's own names. The kit's clang comes without headers. */
#ifndef FREESTANDING_STDINT_H
#define FREESTANDING_STDINT_H

typedef __UINT8_TYPE__ uint8_t;
typedef __UINT16_TYPE__ uint16_t;
typedef __UINT32_TYPE__ uint32_t;
typedef __UINT64_TYPE__ uint64_t;
typedef __INT32_TYPE__ int32_t;

#endif
