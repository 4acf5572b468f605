#ifndef MEMCAD_STDDEF_H
#define MEMCAD_STDDEF_H
#define NULL ((void *)0)
typedef unsigned long size_t;
typedef long ptrdiff_t;
typedef int wchar_t;
#endif
