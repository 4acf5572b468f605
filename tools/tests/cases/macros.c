#include <stdlib.h>
#include "memcad.h"
#define FREE(p) do { free(p); (p) = NULL; } while (0)
#define EACH(it, list) for ((it) = (list); (it); (it) = (it)->next)
static const int limit = 4;
struct node { int n; struct node *next; };
struct table { struct node *buckets[12]; int count; };
static int find(const struct table *t, int n)
{
    struct node *it;
    EACH(it, t->buckets[(n % 12 + 12) % 12])
        if (it->n == n)
            return 1;
    return 0;
}
int main(void)
{
    const int shift = 2, size = limit + shift;
    struct table t = { { NULL }, 0 };
    struct node *e, *it;
    int i, hits = 0;
    for (i = 0; i < size; i++) {
        do {
            if ((e = malloc(sizeof *e)) != NULL)
                break;
            hits--;
        } while (0);
        if (!e)
            continue;
        e->n = input();
        e->next = t.buckets[(e->n % 12 + 12) % 12];
        t.buckets[(e->n % 12 + 12) % 12] = e;
        t.count++;
    }
    hits += find(&t, 1) + 2 * find(&t, 2);
    for (i = 0; i < 12; i++)
        while ((it = t.buckets[i])) {
            t.buckets[i] = it->next;
            free((void *)it);
        }
    e = NULL;
    FREE(e);
    assert_empty();
    return hits + t.count;
}
