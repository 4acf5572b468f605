#include <stdlib.h>
#include "memcad.h"
struct pair { int a, b; struct pair *next; };
static void raise_by(int *n, int by) { *n += by; }
int main(void)
{
    struct pair *p = malloc(sizeof *p);
    struct pair v;
    int *which, *none = NULL;
    v.a = 1;
    v.b = 2;
    which = input() ? &p->a : &v.b;
    p->a = 3;
    p->b = 4;
    raise_by(&p->b, input());
    raise_by(which, 5);
    raise_by(&v.a, 1);
    if (which == &p->a) p->b++;
    if (v.a == 3) none = &v.a;
    if (input() == 7) (*none)++;
    v.a += p->a + p->b;
    if (input() == 6) free(p);
    if (input() == 5) raise_by(&p->a, 1);
    return v.a + v.b;
}
