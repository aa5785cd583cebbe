/* Functions with one bug each, where a compiler or its library would do otherwise than pulsex reads. */
#include <stdlib.h>

struct list {
  int value;
  struct list *rest;
};

/* Null where there is no memory. */
static struct list *cell(struct list *rest) {
  struct list *made = malloc(sizeof(struct list));
  if (made == NULL) return NULL;
  made->rest = rest;
  return made;
}

/* Frees what stands behind a cell. */
static int drop_rest(struct list *list) {
  free(list->rest);
  list->rest = NULL;
  return 1;
}

static int drop(struct list *list) {
  free(list);
  return 1;
}

static int sum(int left, int right) {
  return left + right;
}

void input(void) {
  int *none = NULL;
  if (getchar() == 10) {
    if (getchar() == -1) *none = 1;
  }
}

void wraps(void) {
  int most = 2147483647;
  int *none = NULL;
  if (most + 1 < most) *none = most;
}

void update_through_pointer(void) {
  int *number = malloc(sizeof(int));
  if (!number) return;
  *number = 1;
  *number++;
  if (*number == 2) {
    free(number);
    free(number);
  }
}

/* The pointer that is assigned through is taken before the right side is evaluated. */
void order_of_assignment(void) {
  struct list *list = cell(cell(NULL));
  if (list == NULL || list->rest == NULL) return;
  list->rest->value = drop_rest(list);
}

void order_of_update(void) {
  struct list *list = cell(cell(NULL));
  if (list == NULL || list->rest == NULL) return;
  list->rest->value = 5;
  list->rest->value -= drop_rest(list);
}

void order_of_arguments(void) {
  struct list *list = cell(NULL);
  if (!list) return;
  list->value = 1;
  sum(drop(list), list->value);
}

void order_of_operands(void) {
  struct list *list = cell(NULL);
  if (!list) return;
  list->value = 1;
  int both = drop(list) + list->value;
}

/* No block has the place of one that was freed. */
void new_place(void) {
  int *old = malloc(sizeof(int));
  free(old);
  int *fresh = malloc(sizeof(int));
  if (fresh != NULL && old != NULL && fresh != old) free(old);
}

void unwritten_in_new_place(void) {
  int *old = malloc(sizeof(int));
  free(old);
  int *fresh = malloc(sizeof(int));
  if (fresh != NULL && fresh != old) old = fresh;
  if (old == NULL) return;
  int number = *fresh;
}

void unwritten_local(void) {
  int number;
  int copy = number;
}

void unwritten_before_input(void) {
  int number;
  number += getchar();
}

void unwritten_pointer(void) {
  struct list *list;
  list->value = getchar();
}

void unwritten_cell(void) {
  struct list *list = cell(cell(NULL));
  if (list == NULL || list->rest == NULL) return;
  list->rest->value++;
}

void unwritten_in_turn(void) {
  for (int i = 0; i < 2; i++) {
    int number;
    if (i == 0) number = 1;
    int copy = number;
  }
}

static int falls_off(int number) {
  if (number > 0) return number;
}

void unwritten_result(void) {
  int number = falls_off(1) + 2 * falls_off(0);
}

/* The C library has functions of these names. */
int remove(struct list *list) {
  return list->value;
}

int abs(int number, int *given, struct list *list) {
  free(NULL);
  return remove(NULL) + number;
}

void calls_unknown(void) {
  int *none = NULL;
  if (getchar() == 0) unknown(1);
  else *none = 1;
}

int later_called(struct list *list) {
  return later_defined(list, NULL)->value;
}

void early(void) {
  later_called(NULL);
}

static struct list *later_defined(struct list *list, struct later *later) {
  return list;
}

int main(int count, struct list *words) {
  int *none = NULL;
  if (count == count) *none = count;
}

void through_cast(void) {
  int number = (struct list *)malloc(sizeof(struct list))->value;
}

/* Names that a compiler or a header takes for something else. */
void taken_names(int typeof) {
  int EOF = typeof;
  int *asm = NULL;
  if (EOF == typeof) *asm = 1;
}

/* Where one function is left alone by the path, and is declared behind it. */
void skips(struct behind *given) {
  int *none = NULL;
  if (none != NULL) exit(given, none);
  *none = 1;
}

int exit(struct behind *given, int *none) {
  return shown(given);
}

int shown(struct behind *given) {
  return given == NULL;
}

struct behind {
  int value;
};
