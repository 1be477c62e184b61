/* One call line of the vectors' format, `CALL => OUTCOME`, read into exact-length heap buffers.
 * Used by tests/c/calls.c and by the benchmark. */
#ifndef CALL_LINE_H
#define CALL_LINE_H

#include <stddef.h>
#include <stdint.h>

/* A lent slice with guard words on each side; `words` points just behind the first ones. */
struct slice {
  uint32_t *words;
  size_t length;
};

enum call_name { TRANSLATE, RUN, ANSWER };

struct call {
  enum call_name name;
  int shows_buffers; /* an x call: the outcome shows every lent buffer whole */
  uint32_t fill;
  uint32_t mode;
  struct slice plan, work, output;               /* written by the call; `plan` is lent to be read in a run */
  struct slice catalogue, tables, question;      /* only read */
  struct slice catalogue_copy, tables_copy, question_copy, plan_copy; /* to see that they were only read */
};

/* Cuts `line` at " =>" and reads the call before it; ends the program with a message when it is none. */
void read_call(char *line, struct call *call);

/* 1 when every guard word stands and every slice that is only read is unchanged. */
int call_is_intact(const struct call *call);

void free_call(struct call *call);

#endif
