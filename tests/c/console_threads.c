/* examples/console.c by two threads at once: each asks its question many times over, in both modes, and both must get the same answer and the
 * same refusal every time. */
#define main console_main
#include "../../examples/console.c"
#undef main

#include <pthread.h>
#include <string.h>

#define TURNS 200

static struct buffers lent[2];

/* 2 rows, Ana and Chiara, each time; and refusal 10 */
static int right(struct buffers *b, uint32_t mode) {
  return ask(b, mode, DESK_MOST_WORDS) == DESK_OK && b->rows == 2 && b->width == 1 && b->output[0] == 4 && b->output[1] == 9 && b->place == 0 &&
         ask(b, mode, 20) == DESK_NO_ROOM && b->rows == 0 && b->place > 0;
}

static void *turns(void *number) {
  struct buffers *b = &lent[*(int *)number];
  for (uint32_t turn = 0; turn < TURNS; turn++) {
    memset(b, 0xA5, sizeof *b);
    if (!right(b, turn % 2)) return number;
  }
  return NULL;
}

int main(void) {
  int numbers[2] = {0, 1};
  pthread_t threads[2];
  void *wrong[2];
  console_main();
  for (int i = 0; i < 2; i++) {
    if (pthread_create(&threads[i], NULL, turns, &numbers[i])) return 2;
  }
  for (int i = 0; i < 2; i++) pthread_join(threads[i], &wrong[i]);
  printf("two threads, %d turns each\n", TURNS);
  return wrong[0] || wrong[1];
}
