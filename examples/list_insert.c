// Puts a cell into a list that is in ascending order. The last assert fails where the list isn't in order.
#include <assert.h>
#include <stddef.h>

struct cell {
  int v;
  struct cell *next;
};

struct cell *insert(struct cell *list, struct cell *one) {
  struct cell *at = list;
  if (list == NULL || one->v <= list->v) {
    one->next = list;
    return one;
  }
  while (at->next != NULL && at->next->v < one->v)
    at = at->next;
  one->next = at->next;
  at->next = one;
  return list;
}

int testme(struct cell *list, struct cell *one) {
  struct cell *head;
  assume(one != NULL);
  head = insert(list, one);
  if (head->next != NULL)
    assert(head->v <= head->next->v);
  return 0;
}
