#include <stdlib.h>
#include "memcad.h"
struct ring { struct ring *next; int n; };
static void drop(struct ring *head, int too_far)
{
    struct ring *p = head->next;
    while (p != head) {
        struct ring *next = p->next;
        free(p);
        p = next;
    }
    if (too_far)
        free(p);
}
int main(void)
{
    struct ring head = { &head, 0 };
    int i;
    for (i = 0; i < 3; i++) {
        struct ring *e = malloc(sizeof *e);
        if (!e) break;
        e->next = head.next;
        head.next = e;
    }
    drop(&head, input() == 2);
    exit(0);
}
