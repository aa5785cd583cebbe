#include <stdlib.h>

struct record {
  int key;
  int uses;
  struct record *next;
};

struct table {
  struct record *first;
  int size;
};

static struct table *new_table(void) {
  struct table *table = malloc(sizeof(struct table));
  if (table == NULL) return NULL;
  table->first = NULL;
  table->size = 0;
  return table;
}

/* A new record in front of the others; null where there is no memory. */
static struct record *add(struct table *table, int key) {
  struct record *fresh = malloc(sizeof(struct record));
  if (fresh == NULL) return NULL;
  fresh->key = key;
  fresh->next = table->first;
  table->first = fresh;
  table->size++;
  return fresh;
}

static void use(struct record *record) {
  record->uses++;
}

int main(void) {
  struct table *table = new_table();
  if (table == NULL) return 1;
  struct record *record = add(table, 7);
  if (record == NULL) return 1;
  use(record);
  return table->size;
}
