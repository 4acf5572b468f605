#include "memcad.h"
static int gcd(int a, int b)
{
    while (b) {
        int t = a % b;
        a = b;
        b = t;
    }
    return a;
}
int main(void)
{
    int n = input(), m = input();
    int q = n / 10, r = n % 10;
    assert(q * 10 + r == n);
    assert(r > -10 && r < 10);
    if (n == 1)
        return n / m;
    return gcd(n, m) / (m - 5 ? m - 5 : 1);
}
