#include <stdlib.h>
#include "memcad.h"
struct node { int data; struct node *next; };
struct list { struct node *head, *tail; int count; };
static void init(struct list *l) { l->head = l->tail = NULL; l->count = 0; }
static int push(struct list *l, int n)
{
    struct node *e = malloc(sizeof(*e));
    if (!e) return 0;
    e->data = n;
    e->next = NULL;
    if (l->tail) l->tail->next = e; else l->head = e;
    l->tail = e;
    l->count++;
    return 1;
}
static void clear(struct list *l)
{
    while (l->head) {
        struct node *e = l->head;
        l->head = e->next;
        free(e);
    }
    init(l);
}
int main(void)
{
    struct list l, empty = { NULL, NULL, 0 }, named = { .count = 4 };
    int i;
    init(&l);
    for (i = 0; i < 3; i++) {
        struct list inner = { 0 };
        if (!push(&l, i) || !push(&inner, i)) { clear(&inner); break; }
        if (input() == 1) { clear(&inner); continue; }
        clear(&inner);
    }
    i = l.count + named.count + empty.count;
    clear(&l);
    assert_empty();
    return i;
}
