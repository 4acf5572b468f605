#include <stdlib.h>
struct node { int data; struct node *next; };
int main() {
  struct node *p = malloc(sizeof(struct node));
  p->data = 1;
  free(p);
  return 0;
}
