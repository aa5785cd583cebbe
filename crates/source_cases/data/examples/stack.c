#include <stdlib.h>

struct item {
  int value;
  struct item *below;
};

/* Null where there is no memory. */
static struct item *push(struct item *top, int value) {
  struct item *fresh = malloc(sizeof(struct item));
  if (fresh == NULL) return NULL;
  fresh->value = value;
  fresh->below = top;
  return fresh;
}

/* Takes the top off, and frees it. */
static struct item *pop(struct item *top) {
  struct item *below = top->below;
  free(top);
  return below;
}

int main(void) {
  struct item *top = push(NULL, 1);
  if (top == NULL) return 1;
  struct item *old = top;
  top = pop(top);
  free(old);
  return 0;
}
