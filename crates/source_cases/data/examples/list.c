#include <stdlib.h>

struct node {
  int value;
  struct node *next;
};

/* A list with one value more in front. */
static struct node *push(struct node *head, int value) {
  struct node *fresh = malloc(sizeof(struct node));
  fresh->value = value;
  fresh->next = head;
  return fresh;
}

static int sum(struct node *head) {
  int total = 0;
  while (head != NULL) {
    total += head->value;
    head = head->next;
  }
  return total;
}

int main(void) {
  struct node *head = NULL;
  for (int i = 0; i < 2; i++) {
    head = push(head, i);
  }
  return sum(head);
}
