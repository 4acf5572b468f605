#include <stdlib.h>
struct node { int v; struct node *next; };
static struct node *head;

int take(void)
{
    struct node *e = head;
    int v = e->v;
    head = e->next;
    free(e);
    return v;
}
