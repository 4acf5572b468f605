#include <stdlib.h>
#include "memcad.h"
typedef struct node { int data; struct node *next; } Node;
static Node *head, *spare = NULL;
static int count, limit = 4;
static struct { int made, freed; } stats = { 0, 0 };
static Node sentinel = { 7, NULL };
static Node *get(void)
{
    Node *n = spare;
    static int calls = 0;
    calls++;
    if (n) { spare = n->next; return n; }
    if (count >= limit || calls > 20) return NULL;
    n = malloc(sizeof(Node));
    if (n) { count++; stats.made++; }
    return n;
}
static void put(Node *n) { n->next = spare; spare = n; }
static void drain(Node **list)
{
    while (*list) {
        Node *n = *list;
        *list = n->next;
        free(n);
        stats.freed++;
    }
}
int main(void)
{
    int c;
    while ((c = input())) {
        if (c > 0) {
            Node *n = get();
            if (!n) break;
            n->data = c;
            n->next = head;
            head = n;
        } else if (head) {
            Node *n = head;
            head = head->next;
            put(n);
        }
    }
    drain(&head);
    drain(&spare);
    assert(stats.made == stats.freed);
    assert(sentinel.data == 7 && sentinel.next == NULL);
    assert_empty();
    return stats.made;
}
