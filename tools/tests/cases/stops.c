#include <stdio.h>
#include <stdlib.h>
#include "memcad.h"
struct node { int data; struct node *next; };
static struct node *must(void)
{
    struct node *p = malloc(sizeof *p);
    if (!p) {
        fprintf(stderr, "out of memory\n");
        exit(EXIT_FAILURE);
    }
    p->data = input();
    return p;
}
int main(void)
{
    struct node *p = must();
    if (p->data == 0)
        abort();
    printf("%d %d\n", p->data, p->data + 1);
    free(p);
    if (input() == 3)
        printf("%d\n", p->data);
    return 0;
}
