#include <stdlib.h>
#include "memcad.h"
struct node { int data; struct node *next; };
int main(void)
{
    struct node *p = input() ? malloc(sizeof *p) : NULL;
    int x = p ? (p->data = input(), p->data + 1) : -1;
    int y = x > 0 ? x < 5 ? 1 : 2 : p == NULL ? 3 : 4;
    struct node *q = y == 3 ? NULL : p;
    x = q ? q->data : 7;
    input() ? (void)(x = 1) : (void)(x = 2);
    free(q);
    assert_empty();
    return x + y;
}
