#ifndef LIST_H
#define LIST_H

struct list {
    int value;
    struct list *next;
};

struct list *list_insert(struct list *head, int value);
void list_free(struct list *head);

#endif
