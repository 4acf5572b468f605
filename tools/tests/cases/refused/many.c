#include <stdlib.h>
#include <string.h>
union number { int i; float f; };
struct node { int data; struct node *next; struct { int x; } in; };
typedef int (*compare)(int, int);
static int depth(struct node *p) { return p ? 1 + depth(p->next) : 0; }
extern void unknown(struct node *p);
int main(void)
{
    struct node *p = malloc(sizeof *p), *q = malloc(10 * sizeof *q);
    struct node *row[100];
    void *any = p;
    char *text = strdup("a");
    int i = 0;
    p = p + 1;
    p[3].data = 1;
    unknown(p);
    i = i++ + i;
again:
    if (i)
        goto again;
    row[i] = p;
    return depth(p);
}
