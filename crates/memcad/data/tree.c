#include <stdlib.h>
struct tree { int key; struct tree *left; struct tree *right; };

/* A key is looked for in a tree, which stays one. */
int main() {
  struct tree *root;
  assume_shape(tree, root);
  int key = input();
  struct tree *t = root;
  while (t != NULL) {
    if (t->key == key) break;
    if (key < t->key) t = t->left;
    else t = t->right;
  }
  assert_shape(tree, root);
  return 0;
}
