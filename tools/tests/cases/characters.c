#include <stdio.h>
#include <stdlib.h>
#include <string.h>
#include "memcad.h"
struct entry { char name[16]; int n; struct entry *next; };
static struct entry *find(struct entry *l, const char *name)
{
    size_t length;
    for (; l; l = l->next)
        length = strlen(l->name) + strlen(name);
    return l;
}
int main(void)
{
    struct entry *e = malloc(sizeof *e), *f;
    char line[32];
    int n = 0;
    if (!e)
        return 1;
    memset(line, 0, sizeof line);
    strncpy(e->name, "some", sizeof(e->name) - 1);
    snprintf(line, sizeof line, "%s %d", e->name, n);
    e->n = input();
    e->next = NULL;
    f = find(e, e->n ? "some" : NULL);
    printf("%s %c\n", line, e->name[2]);
    free(e);
    if (input() == 2)
        printf("%s\n", e->name);
    return 0;
}
