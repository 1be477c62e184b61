/* Reads call lines, `CALL` or `CALL => OUTCOME`, makes each call on the desk, and prints `CALL => OUTCOME` with the
 * outcome that the desk gave. So a file of right lines comes back as the same bytes.
 *
 * Every slice has its exact length on the heap, with guard words on each side; lent numbers hold a mark before the
 * call, so that one that isn't set shows. A broken guard, or a changed slice that is only lent to be read, is printed
 * behind the outcome. Built with the address and undefined-behaviour sanitizers. */
#define _GNU_SOURCE
#include "make_call.h"

#include <stdio.h>
#include <stdlib.h>
#include <string.h>

#define UNSET 0xDEADBEEFu

/* " |" and the words; never more than the slice holds, whatever numbers the desk gave */
static void print_words(struct slice slice, size_t count) {
  fputs(" |", stdout);
  for (size_t i = 0; i < count && i < slice.length; i++) printf(" %u", slice.words[i]);
}

static void print_outcome(const struct call *call, const struct results *r) {
  printf("%u %u %u %u", r->status, r->place, r->nodes, r->heavy);
  if (call->name != TRANSLATE) printf(" %u %u %u", r->room, r->width, r->rows);
  if (!call->shows_buffers) {
    if (call->name == TRANSLATE) print_words(call->plan, (size_t)r->nodes * 36);
    else print_words(call->output, (size_t)r->width * r->rows);
  } else {
    if (call->name != RUN) print_words(call->plan, call->plan.length);
    if (call->name != TRANSLATE) print_words(call->work, call->work.length);
    if (call->name != TRANSLATE) print_words(call->output, call->output.length);
  }
  if (!call_is_intact(call)) fputs(" | GUARD BROKEN OR READ-ONLY SLICE CHANGED", stdout);
}

int main(void) {
  char *line = NULL;
  size_t size = 0;
  while (getline(&line, &size, stdin) != -1) {
    line[strcspn(line, "\n")] = '\0';
    struct call call;
    struct results results = {UNSET, UNSET, UNSET, UNSET, UNSET, UNSET, UNSET};
    read_call(line, &call); /* cuts the line behind the call */
    make_call(&call, &results);
    printf("%s => ", line);
    print_outcome(&call, &results);
    putchar('\n');
    free_call(&call);
  }
  free(line);
  return 0;
}
