#include <stdlib.h>
#include "memcad.h"
struct node { struct node *kids[3]; int key; };
int main(void)
{
    struct node *n = malloc(sizeof *n), *row[2] = { n, NULL };
    int i;
    if (!n) return 1;
    for (i = 0; i < 3; i++)
        n->kids[i] = i == input() ? n : NULL;
    i = input();
    if (row[i & 1]) row[0]->key = i;
    if (n->kids[i])
        n->kids[i]->key = 4;
    free(row[0]);
    return i;
}
