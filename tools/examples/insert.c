#include <stdio.h>
#include <stdlib.h>

struct node { int key; struct node *next; };

static void insert(struct node **list, int key)
{
    struct node **pp = list, *n = malloc(sizeof *n);
    if (!n)
        return;
    while (*pp && (*pp)->key < key)
        pp = &(*pp)->next;
    n->key = key;
    n->next = *pp;
    *pp = n;
}

int main(void)
{
    struct node *list = NULL;
    while (getchar() != EOF)
        insert(&list, rand());
    while (list) {
        struct node *next = list->next;
        free(list);
        list = next;
    }
    return 0;
}
