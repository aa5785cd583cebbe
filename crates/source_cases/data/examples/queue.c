#include <stdlib.h>

struct job {
  int number;
  struct job *behind;
};

struct queue {
  struct job *first;
  struct job *last;
};

static struct queue *new_queue(void) {
  struct queue *queue = malloc(sizeof(struct queue));
  if (queue == NULL) return NULL;
  queue->first = NULL;
  queue->last = NULL;
  return queue;
}

/* 1 where there was memory for the job. */
static int append(struct queue *queue, int number) {
  struct job *fresh = malloc(sizeof(struct job));
  if (fresh == NULL) return 0;
  fresh->number = number;
  fresh->behind = NULL;
  if (queue->last == NULL) {
    queue->first = fresh;
  } else {
    queue->last->behind = fresh;
  }
  queue->last = fresh;
  return 1;
}

/* The number of the first job, which is taken off; 0 where there is none. */
static int take(struct queue *queue) {
  struct job *job = queue->first;
  if (job == NULL) return 0;
  int number = job->number;
  queue->first = job->behind;
  if (queue->first == NULL) queue->last = NULL;
  free(job);
  return number;
}

int main(void) {
  struct queue *queue = new_queue();
  if (queue == NULL) return 1;
  append(queue, 1);
  append(queue, 2);
  int sum = take(queue) + take(queue);
  free(queue);
  return sum;
}
