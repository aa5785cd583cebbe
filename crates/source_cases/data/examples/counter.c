#include <stdio.h>
#include <stdlib.h>

struct counter {
  int lines;
  int bytes;
};

static void count(struct counter *counter, int byte) {
  if (byte == 10) counter->lines++;
  counter->bytes++;
}

/* How many lines the input has, or -1. */
static int count_lines(void) {
  struct counter *counter = malloc(sizeof(struct counter));
  if (!counter) return -1;
  counter->lines = 0;
  counter->bytes = 0;
  int byte = getchar();
  while (byte != -1) {
    count(counter, byte);
    byte = getchar();
  }
  int lines = counter->lines;
  free(counter);
  return lines;
}

int main(void) {
  if (count_lines() < 0) return 1;
  return 0;
}
