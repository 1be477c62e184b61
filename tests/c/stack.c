/* Reads call lines, makes each call on a thread whose stack is painted beforehand, and fails for one that needs more stack
 * than desk.h says. Prints the most that any call needed, and 'N passed, M failed'. */
#define _GNU_SOURCE
#include "desk.h"
#include "make_call.h"

#include <pthread.h>
#include <stdio.h>
#include <stdlib.h>
#include <string.h>

#define STACK_BYTES (1u << 20)
#define PAINT 0xA5

static unsigned char *stack;

static void *on_thread(void *call) {
  struct results results;
  if (call) make_call(call, &results);
  return NULL;
}

/* The bytes of the painted stack that a thread changed, from the lowest of them up. */
static size_t used_by(struct call *call) {
  pthread_attr_t attributes;
  pthread_t thread;
  memset(stack, PAINT, STACK_BYTES);
  if (pthread_attr_init(&attributes) || pthread_attr_setstack(&attributes, stack, STACK_BYTES) ||
      pthread_create(&thread, &attributes, on_thread, call) || pthread_join(thread, NULL)) {
    fputs("stack: no thread\n", stderr);
    exit(2);
  }
  pthread_attr_destroy(&attributes);
  size_t unused = 0;
  while (unused < STACK_BYTES && stack[unused] == PAINT) unused++;
  return STACK_BYTES - unused;
}

int main(void) {
  char *line = NULL;
  size_t size = 0, most = 0;
  unsigned passed = 0, failed = 0;
  if (posix_memalign((void **)&stack, 4096, STACK_BYTES)) return 2;
  size_t thread_alone = used_by(NULL);
  while (getline(&line, &size, stdin) != -1) {
    line[strcspn(line, "\n")] = '\0';
    struct call call;
    read_call(line, &call);
    size_t used = used_by(&call) - thread_alone;
    if (most < used) most = used;
    if (used <= DESK_STACK_BYTES) passed++;
    else {
      failed++;
      printf("%zu bytes of stack: %.120s\n", used, line);
    }
    free_call(&call);
  }
  printf("most stack of a call: %zu bytes, of %u allowed\n", most, (unsigned)DESK_STACK_BYTES);
  printf("%u passed, %u failed\n", passed, failed);
  free(line);
  free(stack);
  return failed || !passed;
}
