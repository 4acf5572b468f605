#include <stdlib.h>
#include "memcad.h"
struct cell { int n; };
static struct cell *kept;
static void keep(struct cell *c) { kept = c; }
int main(void)
{
    int i, sum = 0;
    for (i = 0; i < 3; i++) {
        struct cell c;
        c.n = i;
        keep(&c);
        sum += kept->n;
        if (input() == 3) break;
    }
    if (input() == 2)
        sum += kept->n;
    return sum;
}
