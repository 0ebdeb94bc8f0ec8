/* The names of the C standard's headers that our C programs use, for the kit's compiler, which brings no headers. */
#ifndef STANDARD_STDDEF_H
#define STANDARD_STDDEF_H
typedef __SIZE_TYPE__ size_t;
#define NULL ((void *)0)
#define offsetof(type, member) __builtin_offsetof(type, member)
#endif
