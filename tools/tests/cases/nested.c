#include <stdlib.h>
#include "memcad.h"
typedef struct { int x, y; } point;
typedef struct shape { point at; struct { int width; } size; struct shape *next; } shape;
int main(void)
{
    shape *s = calloc(1, sizeof(shape)), local = { { 1, 2 }, { 3 }, NULL };
    if (!s) return 1;
    assert(s->at.x == 0 && s->next == NULL);
    s->at.x = local.at.y;
    s->size.width = s->at.x + local.size.width;
    s->next = &local;
    s->next->at.y = input();
    local.at.x = s->size.width + s->next->at.y;
    free(s);
    return local.at.x;
}
