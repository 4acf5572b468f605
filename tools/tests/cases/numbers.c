#include <stdint.h>
#include <stdlib.h>
#include "memcad.h"
struct item { uint8_t tag; unsigned long size; double weight; const char *name; int ok; struct item *next; };
int main(void)
{
    struct item *i = malloc(sizeof *i);
    char buffer[16];
    unsigned n;
    if (!i) return 1;
    i->tag = 'a';
    i->size = sizeof *i;
    i->weight = 1.5 * i->tag;
    i->name = "item";
    i->ok = 3;
    buffer[input() & 7] = 'x';
    for (n = 0; n < 4u; n++)
        i->size += n;
    i->next = NULL;
    if (i->name == NULL) i->next->ok = 1;
    i->ok -= 3;
    n = i->ok;
    free(i);
    return 0;
}
