#include <stdbool.h>
#include <stdlib.h>
struct node { int data; struct node *next; };
struct stack { struct node *top; int size; };

bool push(struct stack *s, int data)
{
    struct node *n = malloc(sizeof *n);
    if (!n)
        return false;
    n->data = data;
    n->next = s->top;
    s->top = n;
    s->size++;
    return true;
}

int pop(struct stack *s)
{
    struct node *n = s->top;
    int data = n->data;
    s->top = n->next;
    free(n);
    return data;
}

void clear(struct node **list)
{
    while (*list) {
        struct node *n = *list;
        *list = n->next;
        free(n);
    }
}
