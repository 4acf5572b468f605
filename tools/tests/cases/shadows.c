#include <stdlib.h>
#include "memcad.h"
struct node { int data; struct node *next; };
static int data(struct node *node) { int data = node->data; { int data = 3; node->data = data; } return data; }
int main(void)
{
    struct node *p = malloc(sizeof *p);
    int i = 0, free_ = 2;
    p->data = input();
    for (int i = 0; i < 2; i++) {
        int p = i;
        free_ += p;
    }
    { int i = data(p); free_ += i; }
    free(p);
    return i + free_;
}
