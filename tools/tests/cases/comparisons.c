#include <stdbool.h>
#include <stdlib.h>
#include "memcad.h"
struct node { int data; bool set; };
static bool between(int low, int n, int high) { return low <= n && n <= high; }
static int sign(int n) { return (n > 0) - (n < 0); }
int main(void)
{
    struct node *p = malloc(sizeof(struct node));
    bool b = p;
    int n = input(), same;
    if (!p)
        return b;
    p->set = n;
    same = p->set == (n != 0);
    p->set = p;
    assert(same && p->set == true);
    b = between(-1, n, 3) && !between(1, n, 1);
    n = sign(n) + b * 4 + !n;
    free(p);
    return n;
}
