#include <stddef.h>
#undef assert
#ifdef NDEBUG
#define assert(condition) ((void)0)
#endif
#ifndef MEMCAD_ASSERT_H
#define MEMCAD_ASSERT_H
#define static_assert _Static_assert
#endif
