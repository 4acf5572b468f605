#include <stdlib.h>
struct node { int data; struct node *next; };

/* As list.c, but what malloc answers is not tested. */
int main() {
  struct node *list = NULL;
  while (input() != 0) {
    struct node *n = malloc(sizeof(struct node));
    n->data = input();
    n->next = list;
    list = n;
  }
  int sum = 0;
  struct node *walk = list;
  while (walk != NULL) {
    if (walk->data == sum) sum = walk->data;
    walk = walk->next;
  }
  struct node *back = NULL;
  while (list != NULL) {
    struct node *next = list->next;
    list->next = back;
    back = list;
    list = next;
  }
  while (back != NULL) {
    struct node *next = back->next;
    free(back);
    back = next;
  }
  assert_empty();
  return 0;
}
