#include <stdlib.h>
#include "memcad.h"
struct node { int data; struct node *next; };
static struct node *build(int n)
{
    struct node *head = NULL, *e;
    int i;
    for (i = 0; i < n; i++) {
        e = malloc(sizeof *e);
        if (!e)
            goto fail;
        e->data = i;
        e->next = head;
        head = e;
        while (input())
            if (input() == 7)
                goto done;
    }
done:
    return head;
fail:
    while (head) {
        e = head;
        head = head->next;
        free(e);
    }
    return NULL;
}
int main(void)
{
    struct node *l = build(input());
    int n = 0, rc = 1;
    if (!l)
        goto out;
    for (; l; n++) {
        struct node *next = l->next;
        free(l);
        l = next;
    }
    rc = 0;
out:
    assert_empty();
    return rc + n;
}
