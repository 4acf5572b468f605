#include <stdlib.h>
#include "memcad.h"
typedef struct node { int key; struct node *next; } Node;
static void insert(Node **head, int key)
{
    Node **pp = head, *n;
    while (*pp != NULL && (*pp)->key < key)
        pp = &(*pp)->next;
    n = malloc(sizeof *n);
    if (n) {
        n->key = key;
        n->next = *pp;
        *pp = n;
    }
}
static int erase(Node **head, int key)
{
    Node **pp;
    for (pp = head; *pp; pp = &(*pp)->next)
        if ((*pp)->key == key) {
            Node *dead = *pp;
            *pp = dead->next;
            free(dead);
            return 1;
        }
    return 0;
}
int main(void)
{
    Node *head = NULL, **last = &head;
    int i, found = 0;
    for (i = 0; i < 5; i++)
        insert(&head, input());
    found += erase(&head, 1);
    found += erase(&head, 2);
    while (*last)
        last = &(*last)->next;
    if (last == &head)
        found = 9;
    *last = malloc(sizeof(Node));
    if (*last)
        (*last)->next = NULL;
    while (head) {
        Node *next = head->next;
        free(head);
        head = next;
    }
    assert_empty();
    return found;
}
