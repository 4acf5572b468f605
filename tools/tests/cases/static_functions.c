#include <stdlib.h>
#include "memcad.h"
typedef struct stack *Stack;
struct stack { int value; Stack below; };
static inline Stack push(const Stack s, register int v)
{
    Stack n = (Stack)malloc(1 * sizeof(struct stack));
    if (n) { n->value = v; n->below = s; }
    return n;
}
static int pop(Stack *s)
{
    Stack top = *s;
    int v = top->value;
    *s = top->below;
    free(top);
    return v;
}
int main(int argc, char **argv)
{
    Stack s = NULL, n;
    int i, sum = 0;
    (void)argc;
    (void)argv;
    for (i = 0; i < 4; i++) {
        if (!(n = push(s, i))) break;
        s = n;
    }
    sum = pop(&s) + 2 * i;
    while (s != NULL)
        sum += pop(&s);
    if (sum == -1 + input())
        pop(&s);
    assert_empty();
    return sum;
}
