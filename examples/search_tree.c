// A binary search tree: what is put in is found.
#include <assert.h>
#include <stdlib.h>

typedef struct node {
  int key;
  struct node *left;
  struct node *right;
} node;

node *lookup(node *t, int key) {
  while (t != NULL && t->key != key)
    if (key < t->key)
      t = t->left;
    else
      t = t->right;
  return t;
}

node *insert(node *t, node *one) {
  node *at = t;
  if (t == NULL) return one;
  for (;;) {
    if (one->key < at->key) {
      if (at->left == NULL) {
        at->left = one;
        return t;
      }
      at = at->left;
    } else {
      if (at->right == NULL) {
        at->right = one;
        return t;
      }
      at = at->right;
    }
  }
}

int testme(node *root, int key) {
  node *one;
  if (lookup(root, key) != NULL) return 0;
  one = malloc(sizeof(node));
  one->key = key;
  root = insert(root, one);
  assert(lookup(root, key) == one);
  return 1;
}
