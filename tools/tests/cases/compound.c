#include <stdlib.h>
#include "memcad.h"
struct counter { int n; struct counter *next; };
int main(void)
{
    struct counter *c = malloc(sizeof *c);
    int k = input();
    c->n = 5;
    c->n += k;
    c->n -= 2;
    c->n *= c->n;
    c->next = c;
    c->next->next->n /= 3;
    c->n %= 7;
    k <<= 2;
    k = c->n - k;
    free(c);
    return k;
}
