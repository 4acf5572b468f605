#include "memcad.h"
int main(void)
{
    int i = input(), j = 0, k;
    k = i++;
    assert(k == i - 1);
    k = ++i;
    assert(k == i);
    k = i-- - j++;
    while (j-- > 0)
        k += 2;
    k -= --j;
    k *= 3;
    for (i = 0, j = 5; i < j; i++, j--)
        k++;
    return k & 7;
}
