/* The commands of memcad, as C.
 *
 * memcad-c reads them by name.  A C compiler (gcc -fwrapv) gets functions from this header, so that
 * an annotated program also runs: input() and the answers of malloc come from MEMCAD_SEED.
 */
#ifndef MEMCAD_H
#define MEMCAD_H

#ifdef __MEMCAD_C__

int input(void);

#else

#include <assert.h>
#include <stdio.h>
#include <stdlib.h>

static unsigned long memcad_state;
static int memcad_started;
static long memcad_blocks;

static inline unsigned memcad_random(void)
{
    if (!memcad_started) {
        const char *seed = getenv("MEMCAD_SEED");
        memcad_state = seed ? strtoul(seed, NULL, 10) : 1;
        memcad_state = memcad_state * 2654435761ul + 97;
        memcad_started = 1;
    }
    memcad_state = memcad_state * 6364136223846793005ul + 1442695040888963407ul;
    return (unsigned)(memcad_state >> 33);
}

/* Mostly small numbers, so that loops end and keys meet. */
static inline int input(void)
{
    unsigned kind = memcad_random() % 8;
    if (kind < 3)
        return (int)(memcad_random() % 3);
    if (kind < 7)
        return (int)(memcad_random() % 13) - 4;
    return (int)(memcad_random() * 2u + memcad_random() % 2u);
}

static inline int memcad_fails(void)
{
    const char *rate = getenv("MEMCAD_FAILURES");
    return memcad_random() % 100 < (rate ? strtoul(rate, NULL, 10) : 10);
}

static inline void *memcad_malloc(size_t size)
{
    void *block = memcad_fails() ? NULL : malloc(size);
    memcad_blocks += block != NULL;
    return block;
}

static inline void *memcad_calloc(size_t count, size_t size)
{
    void *block = memcad_fails() ? NULL : calloc(count, size);
    memcad_blocks += block != NULL;
    return block;
}

static inline void memcad_free(void *block)
{
    memcad_blocks -= block != NULL;
    free(block);
}

/* The block that stands for a variable in a translated text: it is always there, and not counted. */
static inline void *memcad_block(size_t size)
{
    void *block = malloc(size);
    if (block == NULL)
        abort();
    return block;
}

static inline void memcad_unblock(void *block)
{
    free(block);
}

static inline void memcad_stop(void)
{
    fflush(stdout);
    _Exit(0);
}

static inline void memcad_fault(const char *what)
{
    fprintf(stderr, "memcad: fault: %s\n", what);
    fflush(stdout);
    _Exit(3);
}

#define malloc(size) memcad_malloc(size)
#define calloc(count, size) memcad_calloc(count, size)
#define free(block) memcad_free(block)

#undef assert
#define assert(condition) ((condition) ? (void)0 : memcad_fault("assertion"))
#define assume(condition) ((condition) ? (void)0 : memcad_stop())
#define assume_shape(predicate, x, ...) ((x) = shape_##predicate())
#define assert_shape(predicate, ...) ((void)0)
#define assert_empty() (memcad_blocks == 0 ? (void)0 : memcad_fault("notempty"))

#endif
#endif
