#include <stdlib.h>

struct tree {
  int key;
  struct tree *left;
  struct tree *right;
};

static struct tree *leaf(int key) {
  struct tree *fresh = malloc(sizeof(struct tree));
  if (fresh == NULL) return NULL;
  fresh->key = key;
  fresh->left = NULL;
  fresh->right = NULL;
  return fresh;
}

/* What is left of a tree of one branch when its root is gone. */
static struct tree *without_root(struct tree *root) {
  free(root);
  if (root->left == NULL) return root->right;
  return root->left;
}

int main(void) {
  struct tree *root = leaf(5);
  if (root == NULL) return 1;
  root->left = leaf(3);
  root = without_root(root);
  free(root);
  return 0;
}
