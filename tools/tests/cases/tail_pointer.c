#include <stdlib.h>
#include "memcad.h"
struct node { int n; struct node *next; };
struct list { struct node *head; struct node **tail; };
static void init(struct list *l) { l->head = NULL; l->tail = &l->head; }
static struct node *append(struct list *l, int n)
{
    struct node *e = malloc(sizeof *e);
    if (!e)
        return NULL;
    e->n = n;
    e->next = NULL;
    *l->tail = e;
    l->tail = &e->next;
    return e;
}
static void concatenate(struct list *a, struct list *b)
{
    if (b->tail != &b->head) {
        *a->tail = b->head;
        a->tail = b->tail;
        init(b);
    }
}
int main(void)
{
    struct list a, b;
    struct node *only = NULL, **where = NULL, **p;
    int count = 0, i;
    init(&a);
    init(&b);
    for (i = 0; i < 3; i++) {
        if (!append(&a, i) || input() && !append(&b, i))
            break;
    }
    concatenate(&a, &b);
    where = input() ? &a.head : input() ? &only : NULL;
    if (where == NULL)
        where = input() ? a.tail : &b.head;
    for (p = where; *p; p = &(*p)->next)
        count++;
    if (where && p != where && p == a.tail)
        count += 10;
    while (a.head) {
        struct node *next = a.head->next;
        free(a.head);
        a.head = next;
    }
    if (input() == 3)
        count += *a.tail != NULL;
    assert_empty();
    return count;
}
