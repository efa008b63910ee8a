/* The contents of C's header of this name, as far as the library's header and the module's C use them. */
#ifndef FREESTANDING_STDINT_H
#define FREESTANDING_STDINT_H
typedef __UINT8_TYPE__ uint8_t;
typedef __UINT16_TYPE__ uint16_t;
typedef __UINT32_TYPE__ uint32_t;
typedef __UINT64_TYPE__ uint64_t;
typedef __UINTPTR_TYPE__ uintptr_t;
#define UINT32_MAX __UINT32_MAX__
#endif
