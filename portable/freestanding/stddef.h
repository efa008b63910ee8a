/* The contents of C's header of this name, for a compiler that comes without headers. */
#ifndef FREESTANDING_STDDEF_H
#define FREESTANDING_STDDEF_H
typedef __SIZE_TYPE__ size_t;
#define NULL ((void *)0)
#define offsetof(record, field) __builtin_offsetof(record, field)
#endif
