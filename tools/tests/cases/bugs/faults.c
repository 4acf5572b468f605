#include <stdlib.h>
#include "memcad.h"
struct node { int data; struct node *next; struct node *row[2]; };
static void at(struct node *p, int i, int n)
{
    p->row[i] = NULL;
    p->data = 100 / n;
}
int main(void)
{
    struct node *p = malloc(sizeof *p), *q;
    int unset;
    if (!p) return 1;
    switch (input()) {
    case 0: return p->data;
    case 1: return unset;
    case 2: free(p); free(p); return 0;
    case 3: p->data = 1; assert(p->data == 2); return 0;
    case 4: at(p, 2, 1); return 0;
    case 5: at(p, 0, input()); return 0;
    case 6: assert_empty(); return 0;
    case 7: free(p); q = p; p->next = q; return 0;
    case 8: p->next = NULL; p->next->data = 1; return 0;
    }
    return 0;
}
