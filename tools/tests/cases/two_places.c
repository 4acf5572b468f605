#include <stdlib.h>
#include "memcad.h"
struct tree { int key; struct tree *left, *right; };
static struct tree **find(struct tree **where, int key);
static void add(struct tree **root, int key)
{
    struct tree **p = root;
    while (*p) {
        if ((*p)->key == key) return;
        p = (*p)->key > key ? &(*p)->left : &(*p)->right;
    }
    if (p == root) key = key;
    *p = calloc(1, sizeof **p);
    if (*p) (*p)->key = key;
}
static void drop_leaf(struct tree **p)
{
    while (*p && ((*p)->left || (*p)->right))
        p = (*p)->left ? &(*p)->left : &(*p)->right;
    free(*p);
    *p = NULL;
}
int main(void)
{
    struct tree *root = NULL;
    int i;
    for (i = 0; i < 6; i++)
        add(&root, input());
    for (i = 0; i < 6; i++)
        drop_leaf(&root);
    assert(root == NULL);
    assert_empty();
    return 0;
}
