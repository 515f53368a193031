/* The kit's compiler comes without headers of C's library. These four declare what the C programs here use, for x86-64 Linux. */
#ifndef STDDEF_H
#define STDDEF_H
typedef __SIZE_TYPE__ size_t;
#define NULL ((void *)0)
#define offsetof(type, field) __builtin_offsetof(type, field)
#endif
