// Merges two lists that are in ascending order, by their links. The lists may share cells, or lead back.
#include <assert.h>
#include <stddef.h>

typedef struct cell {
  int v;
  struct cell *next;
} cell;

cell *merge(cell *a, cell *b) {
  if (a == NULL) return b;
  if (b == NULL) return a;
  if (a->v <= b->v) {
    a->next = merge(a->next, b);
    return a;
  }
  b->next = merge(a, b->next);
  return b;
}

int testme(cell *a, cell *b) {
  cell *head = merge(a, b);
  if (a != NULL && b != NULL)
    assert(head->v <= a->v && head->v <= b->v);
  return 0;
}
