/* What the runs of tests add to memcad.h: runs that ask for too much end, and so does exit(). */
#include <memcad.h>
#include <stdbool.h>
#include <stdint.h>
#include <string.h>
#undef exit
#undef abort
#define exit(status) ((void)(status), memcad_stop())
#define abort() memcad_stop()
#define memcad_assert_null(condition) ((condition) ? (void)0 : memcad_fault("null"))
#define memcad_assert_bounds(condition) ((condition) ? (void)0 : memcad_fault("bounds"))
#define memcad_assert_division(condition) ((condition) ? (void)0 : memcad_fault("division"))
#define memcad_assert_overflow(condition) ((condition) ? (void)0 : memcad_fault("overflow"))
#define memcad_assert_badfree(condition) ((condition) ? (void)0 : memcad_fault("badfree"))
static long memcad_asked;
static inline int memcad_counted(void)
{
    if (++memcad_asked > 300)
        memcad_stop();
    return input();
}
#define input() memcad_counted()
void *shape_list(void);
void *shape_dll(void);
void *shape_tree(void);
void *shape_skip(void);
