#include <stdlib.h>

#include "list.h"

struct list *list_insert(struct list *head, int value)
{
    struct list *node = malloc(sizeof *node);
    if (node == NULL)
        return head;
    node->value = value;
    if (head == NULL || value <= head->value) {
        node->next = head;
        return node;
    }
    struct list *at = head;
    while (at->next != NULL && at->next->value < value)
        at = at->next;
    node->next = at->next;
    at->next = node;
    return head;
}

void list_free(struct list *head)
{
    while (head != NULL) {
        struct list *next = head->next;
        free(head);
        head = next;
    }
}
