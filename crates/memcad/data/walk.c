#include <stdlib.h>
struct node { int data; struct node *next; };
int main() {
  struct node *l;
  struct node *c;
  assume_shape(list, l);
  c = l;
  while (c) c = c->next;
  return 0;
}
