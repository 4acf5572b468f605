#include <stdio.h>
#include <stdlib.h>
#include <string.h>
#include "memcad.h"
struct entry { const char *name; struct entry *next; };
static struct entry *add(struct entry *list, const char *name)
{
    struct entry *e = malloc(sizeof *e);
    if (!e) return list;
    e->name = name;
    e->next = list;
    return e;
}
int main(void)
{
    struct entry *list = add(add(NULL, "one"), "two"), *e;
    list = add(list, input() == 5 ? NULL : "three");
    for (e = list; e; e = e->next)
        printf("%s %d\n", e->name, (int)strlen(e->name));
    while (list) { e = list->next; free(list); list = e; }
    assert_empty();
    return 0;
}
