/* A second file, with what pulsex leaves out: what the first file has too, what isn't read, and what isn't typed. */
#include <stdlib.h>
#define MOST 3

struct list {
  int value;
  struct list *rest;
};

static int drop(struct list *list) {
  free(list);
  return 1;
}

int has_switch(int number) {
  switch (number) {
    case 0: return 1;
    default: return 0;
  }
}

/* A prototype that the definition contradicts. */
int not_typed(void);

struct later *not_typed(int number) {
  int wrong = NULL;
  return wrong;
}

void frees_twice(void) {
  struct list *list = cell(NULL);
  if (list == NULL) return;
  if (getchar() > 0) not_typed(1)->number = has_switch(1);
  drop(list);
  drop(list);
}

/* Defined behind its uses. */
struct later {
  int number;
};
