#include <stdio.h>

#include "list.h"

int main(void)
{
    struct list *head = NULL;
    int value;
    while (scanf("%d", &value) == 1)
        head = list_insert(head, value);
    for (struct list *at = head; at != NULL; at = at->next)
        printf("%d\n", at->value);
    list_free(head);
    return 0;
}
