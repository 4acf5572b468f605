#include <stdio.h>
#include <stdlib.h>
#include <stdbool.h>

typedef struct item { int value; struct item *next; } item_t;
typedef struct { item_t *head, *tail; unsigned len; } queue_t;

static bool queue_put(queue_t *q, int value)
{
    item_t *it = malloc(sizeof *it);
    it->value = value;
    it->next = NULL;
    if (q->tail)
        q->tail->next = it;
    else
        q->head = it;
    q->tail = it;
    q->len++;
    return true;
}

int main(void)
{
    queue_t q = { NULL, NULL, 0 };
    queue_put(&q, 1);
    if (!queue_put(&q, 2))
        return 1;
    printf("%u\n", q.len);
    free(q.head);
    return q.head->value;
}
