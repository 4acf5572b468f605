#include <stdlib.h>
#include "memcad.h"
struct node { int data; struct node *next; };
static int asked;
static int ask(void) { asked++; return input(); }
int main(void)
{
    int n = 0, c;
    struct node *p = NULL;
    while ((c = ask()) && n < 5) {
        struct node *e;
        if (!(e = malloc(sizeof *e)) || ask() > 4)
            break;
        e->next = p;
        p = e;
        n++;
    }
    if (n && !(p && p->next) || (ask() || n == 2) && ask())
        n = -n;
    do {
        n--;
        if (n == 3)
            continue;
    } while (n > 0 && (c = input()) != 2);
    while (p) {
        struct node *next = p->next;
        free(p);
        p = next;
    }
    return asked + n;
}
