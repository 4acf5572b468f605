#include <stdlib.h>
#include "memcad.h"
enum color { RED, GREEN = 5, BLUE };
struct node { enum color color; struct node *next; };
static int value(enum color c)
{
    switch (c) {
    case RED: return 1;
    case GREEN:
    case BLUE: return 2;
    }
    return 3;
}
int main(void)
{
    int n = 0, i;
    struct node *p = NULL;
    for (i = 0; i < 4; i++) {
        switch (input()) {
        case 0:
            n += 1;
        case 1:
            n += 2;
            break;
        case 2:
            if (n > 2)
                break;
            n += 4;
            if (input()) {
                n++;
                break;
            } else
                n--;
            n *= 2;
            break;
        case 3:
        case -1: {
            struct node *e = malloc(sizeof *e);
            if (!e)
                break;
            e->color = input() ? BLUE : RED;
            e->next = p;
            p = e;
            n += value(p->color);
            break;
        }
        default:
            n -= 1;
            continue;
        case 5:
            p = p->next;
        }
        n++;
    }
    return n;
}
