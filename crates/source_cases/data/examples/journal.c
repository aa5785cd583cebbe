#include <stdio.h>
#include <stdlib.h>

struct note {
  int level;
  struct note *older;
};

const int most_notes = 100;

/* How many notes there are. */
static int length(struct note *last) {
  if (last == NULL) return 0;
  return 1 + length(last->older);
}

static int weight(int level) {
  switch (level) {
    case 0: return 1;
    default: return 10;
  }
}

static struct note *write(struct note *last, int level) {
  struct note *fresh = malloc(sizeof(struct note));
  if (fresh == NULL) return last;
  fresh->level = weight(level);
  fresh->older = last;
  return fresh;
}

int main(void) {
  struct note *last = write(NULL, 0);
  if (last == NULL) return 1;
  report(length(last));
  free(last);
  return last->level;
}
