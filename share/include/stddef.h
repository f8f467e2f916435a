/* C11 7.19: common definitions, of x86-64 Linux; offsetof by the word that crename has for it. */
#ifndef __CRENAME_STDDEF_H
#define __CRENAME_STDDEF_H

typedef long ptrdiff_t;
typedef unsigned long size_t;
typedef int wchar_t;
typedef struct {
    long long __integer;
    long double __number;
} max_align_t;

#define NULL ((void *)0)
#define offsetof(type, member) __builtin_offsetof(type, member)

#endif
