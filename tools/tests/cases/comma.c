#include "memcad.h"
static int twice(int n) { return n + n; }
int main(void)
{
    int a, b = input();
    a = (b++, b + 1);
    for (a = 0, b = twice(3); a < b; a++, b--)
        ;
    return (a, twice(b));
}
