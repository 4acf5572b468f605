#include <stdlib.h>
#include "memcad.h"
struct node { int data; struct node *next; };
static void divide(int n, int *half, int *rest)
{
    *half = n / 2;
    *rest = n % 2;
}
static int make(struct node **out, int n)
{
    *out = malloc(sizeof **out);
    if (*out == NULL) return -1;
    (*out)->data = n;
    (*out)->next = NULL;
    return 0;
}
int main(void)
{
    int half = 0, rest;
    struct node *p = NULL, *q;
    divide(input(), &half, &rest);
    assert(half + half + rest == half * 2 + rest);
    if (make(&p, half) < 0) return 1;
    if (make(&q, rest) < 0) { free(p); return 2; }
    p->next = q;
    (*(&half))++;
    free(q);
    if (half == 3) p->next->data = 0;
    free(p);
    assert_empty();
    return half;
}
