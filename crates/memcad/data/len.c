#include <stdlib.h>
struct node { int data; struct node *next; };

/* The nodes of a list of n are counted. */
int main() {
  struct node *l;
  int n = input();
  assume_shape(lenlist, l, n);
  int left = n;
  struct node *walk = l;
  while (walk != NULL) {
    walk = walk->next;
    left = left - 1;
  }
  assert(left == 0);
  assert_shape(lenlist, l, n);
  return 0;
}
