#include <stdlib.h>
#include "memcad.h"
struct pair { struct pair *a, *b; int n; };
int main(void)
{
    struct pair *p, *q;
    int x, y;
    if ((p = malloc(sizeof *p)) == NULL)
        return 1;
    p->a = p->b = NULL;
    x = y = input();
    p->n = (x = x + 1) * 2;
    q = p->a = p;
    assert(q == p && x == y + 1);
    if ((y = p->n) != 0 && (x = input()) > 2)
        q = NULL;
    if (q)
        free(q);
    else
        free(p);
    assert_empty();
    return x == y;
}
