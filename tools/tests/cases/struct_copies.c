#include <stdlib.h>
#include "memcad.h"
struct node { int a, b; struct node *next; };
struct outer { struct node in; int n; };
int main(void)
{
    struct node *p = malloc(sizeof *p), v = { 1, 2, NULL }, w;
    struct outer o = { { 3, 4, NULL }, 5 }, other;
    if (!p)
        return 1;
    *p = (struct node){ .b = input(), .next = &v };
    w = *p;
    *p = (struct node){ .a = p->b, .b = p->a, .next = p->next };
    v = w;
    other = o;
    other.in = v;
    o.in.a = other.in.b + p->a - p->b;
    v.a = p->next->b;
    free(p);
    if (input() == 2)
        w = *p;
    return o.in.a + v.a + other.n;
}
