#include <stdio.h>
#include <stdlib.h>
#include "memcad.h"
typedef struct node { int data; struct node *next; } Node;
static void *xmalloc(size_t size)
{
    void *p = malloc(size);
    if (p == NULL) {
        fprintf(stderr, "out of memory\n");
        exit(1);
    }
    return p;
}
static void *get(size_t n) { return malloc(n); }
static Node *swap(Node *a, Node *b, int which)
{
    Node **first = which ? &a : &b;
    *first = (*first)->next;
    return a ? a : b;
}
int main(void)
{
    Node *p = xmalloc(sizeof *p), *q = (Node *)get(sizeof(Node)), *r;
    p->data = input();
    p->next = q;
    if (q)
        q->next = NULL;
    r = swap(p, q, input() > 0);
    if (input() == 5)
        p->data = r->data;
    free(q);
    free(p);
    assert_empty();
    return 0;
}
