struct record {
  int key;
  struct record *next;
};

int last_key(void) {
  struct record *head = NULL;
  for (int key = 0; key < 2; key++) {
    struct record *fresh = malloc(sizeof(struct record));
    if (fresh == NULL) {
      free(head);
      break;
    }
    fresh->key = key;
    fresh->next = head;
    head = fresh;
  }
  return head->key;
}
