/* The helper of `desk --explain`: a question's plan, and what running its first i + 1 nodes gives for each node i, by the desk's own
 * functions. Reads mode, then catalogue, tables and question, each as its length and its words. Prints the outcome of desk_translate
 * (status, place, nodes, heavy) on a line, and for each plan node a line: its 36 words, then status, rows, columns and room of the run. */
#include "desk.h"

#include <inttypes.h>
#include <stdio.h>

#define NODE_WORDS DESK_PLAN_NODE_WORDS

struct list {
  uint32_t words[DESK_MOST_WORDS];
  size_t length;
};

static struct list catalogue, tables, question;
static uint32_t plan[DESK_PLAN_WORDS], work[DESK_MOST_WORDS], output[DESK_MOST_WORDS];

static int read_list(struct list *list) {
  if (scanf("%zu", &list->length) != 1 || list->length > DESK_MOST_WORDS) return 0;
  for (size_t i = 0; i < list->length; i++) {
    if (scanf("%" SCNu32, &list->words[i]) != 1) return 0;
  }
  return 1;
}

static void print_node(size_t node) {
  uint32_t place, nodes, heavy, room, width, rows;
  uint32_t status = desk_run(catalogue.words, catalogue.length, tables.words, tables.length, plan, (node + 1) * NODE_WORDS,
                             work, DESK_MOST_WORDS, output, DESK_MOST_WORDS, &place, &nodes, &heavy, &room, &width, &rows);
  for (size_t i = 0; i < NODE_WORDS; i++) printf("%" PRIu32 " ", plan[node * NODE_WORDS + i]);
  printf("%" PRIu32 " %" PRIu32 " %" PRIu32 " %" PRIu32 "\n", status, rows, width, room);
}

int main(void) {
  uint32_t mode, place, nodes, heavy;
  if (scanf("%" SCNu32, &mode) != 1 || !read_list(&catalogue) || !read_list(&tables) || !read_list(&question)) return 2;
  uint32_t status = desk_translate(catalogue.words, catalogue.length, question.words, question.length, mode, plan,
                                   DESK_PLAN_WORDS, &place, &nodes, &heavy);
  printf("%" PRIu32 " %" PRIu32 " %" PRIu32 " %" PRIu32 "\n", status, place, nodes, heavy);
  for (size_t node = 0; node < nodes; node++) print_node(node);
  return fflush(stdout) == 0 ? 0 : 2;
}
