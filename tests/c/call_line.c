#include "call_line.h"

#include <stdio.h>
#include <stdlib.h>
#include <string.h>

#define GUARD 0xA5C3F00Du
/* The library isn't instrumented, so the sanitizers don't see its own stray writes: these words on each side do. */
#define GUARD_WORDS 16

static void fail(const char *what) {
  fprintf(stderr, "no call line: %s\n", what);
  exit(2);
}

static struct slice new_slice(size_t length, uint32_t fill) {
  size_t all = length + 2 * GUARD_WORDS;
  uint32_t *words = malloc(all * sizeof(uint32_t));
  if (words == NULL) fail("out of memory");
  for (size_t i = 0; i < all; i++) words[i] = GUARD;
  for (size_t i = 0; i < length; i++) words[GUARD_WORDS + i] = fill;
  return (struct slice){words + GUARD_WORDS, length};
}

static uint32_t number(char **at) {
  char *end;
  unsigned long value = strtoul(*at, &end, 10);
  if (end == *at || value > UINT32_MAX) fail("a number is missing or too great");
  *at = end;
  return (uint32_t)value;
}

static struct slice list(char **at) {
  while (**at == ' ') ++*at;
  if (**at != '|') fail("a list is missing");
  ++*at;
  struct slice read = new_slice(number(at), 0);
  for (size_t i = 0; i < read.length; i++) read.words[i] = number(at);
  return read;
}

static struct slice copy_of(struct slice slice) {
  struct slice copy = new_slice(slice.length, 0);
  memcpy(copy.words, slice.words, slice.length * sizeof(uint32_t));
  return copy;
}

static struct slice buffer(char **at, uint32_t fill) { return new_slice(number(at), fill); }

static char *read_name(char *line, struct call *call) {
  static const char *const names[] = {"translate ", "run ", "answer "};
  call->shows_buffers = *line == 'x';
  if (call->shows_buffers) line++;
  for (int name = TRANSLATE; name <= ANSWER; name++) {
    size_t length = strlen(names[name]);
    if (strncmp(line, names[name], length) == 0) {
      call->name = (enum call_name)name;
      return line + length;
    }
  }
  fail("unknown name");
  return NULL;
}

void read_call(char *line, struct call *call) {
  memset(call, 0, sizeof *call);
  char *outcome = strstr(line, " =>");
  if (outcome != NULL) *outcome = '\0';
  char *at = read_name(line, call);
  if (call->shows_buffers) call->fill = number(&at);
  if (call->name != RUN) {
    call->mode = number(&at);
    call->plan = buffer(&at, call->fill);
  }
  if (call->name != TRANSLATE) {
    call->work = buffer(&at, call->fill);
    call->output = buffer(&at, call->fill);
  }
  call->catalogue = list(&at);
  if (call->name != TRANSLATE) call->tables = list(&at);
  if (call->name == RUN) call->plan = list(&at);
  else call->question = list(&at);
  while (*at == ' ' || *at == '\n') at++;
  if (*at != '\0') fail("something stands behind the last list");
  call->catalogue_copy = copy_of(call->catalogue);
  if (call->tables.words) call->tables_copy = copy_of(call->tables);
  if (call->question.words) call->question_copy = copy_of(call->question);
  if (call->name == RUN) call->plan_copy = copy_of(call->plan);
}

static int guarded(struct slice slice) {
  if (slice.words == NULL) return 1;
  for (size_t i = 0; i < GUARD_WORDS; i++) {
    if (slice.words[-1 - (ptrdiff_t)i] != GUARD || slice.words[slice.length + i] != GUARD) return 0;
  }
  return 1;
}

static int unchanged(struct slice slice, struct slice copy) {
  return copy.words == NULL || memcmp(slice.words, copy.words, slice.length * sizeof(uint32_t)) == 0;
}

int call_is_intact(const struct call *call) {
  return guarded(call->plan) && guarded(call->work) && guarded(call->output) && guarded(call->catalogue) &&
         guarded(call->tables) && guarded(call->question) && unchanged(call->catalogue, call->catalogue_copy) &&
         unchanged(call->tables, call->tables_copy) && unchanged(call->question, call->question_copy) &&
         unchanged(call->plan, call->plan_copy);
}

static void free_slice(struct slice slice) {
  if (slice.words != NULL) free(slice.words - GUARD_WORDS);
}

void free_call(struct call *call) {
  struct slice all[] = {call->plan,      call->work,           call->output,      call->catalogue,     call->tables,
                        call->question,  call->catalogue_copy, call->tables_copy, call->question_copy, call->plan_copy};
  for (size_t i = 0; i < sizeof all / sizeof *all; i++) free_slice(all[i]);
}
