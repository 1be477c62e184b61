/* A small console: tables and a question in memory, answered by the desk, and a refusal told in words.
 *
 *     cc $(pkg-config --cflags desk) examples/console.c $(pkg-config --libs desk)      after ./install PREFIX
 *
 * The question: which players have sat out every ban day?
 *
 *     (u[1]) : players(u) : every banDays(d) some satOut(s) (s[1] = u[1] and s[2] = d[1])
 *
 * It compiles as C11 and as C++. Everything is in static buffers: the desk needs no heap. */
#include <desk.h>

#include <inttypes.h>
#include <stdio.h>

#define COUNT(array) (sizeof(array) / sizeof((array)[0]))

/* Numbers stand for names: the desk compares them, the console knows what they mean. */
static const struct {
  uint32_t number;
  const char *name;
} names[] = {{4, "Ana"}, {7, "Bo"}, {9, "Chiara"}, {13, "Dora"}};

enum { PLAYERS, BAN_DAYS, SAT_OUT }; /* the tables' numbers: their order in the catalogue */

/* columns and rows of each table */
static const uint32_t catalogue[] = {2, 4, 1, 2, 2, 5};

/* their rows, one table behind another */
static const uint32_t tables[] = {
    4,  1,  7, 1,  9, 2,  13, 2,        /* players: player, team */
    11, 12,                             /* ban days: day */
    4,  11, 4, 12, 7, 11, 9,  12, 9, 11 /* sat out: player, day */
};

enum { U = 20, D = 3, S = 18 }; /* variables: any numbers from 0 to 25 */

/* A reference is the number of a node above plus one; the last node is the alpha that says what to print. */
static const uint32_t question[] = {
    DESK_TABLE,          PLAYERS,  0, 0,          0, 0, /* 0 */
    DESK_BINDING,        U,        1, 0,          0, 0, /* 1: u runs over node 0 */
    DESK_TABLE,          BAN_DAYS, 0, 0,          0, 0, /* 2 */
    DESK_TABLE,          SAT_OUT,  0, 0,          0, 0, /* 3 */
    DESK_ATOM_ATTRIBUTE, S,        1, DESK_EQUAL, U, 1, /* 4: s[1] = u[1] */
    DESK_ATOM_ATTRIBUTE, S,        2, DESK_EQUAL, D, 1, /* 5: s[2] = d[1] */
    DESK_AND,            5,        6, 0,          0, 0, /* 6: nodes 4 and 5 */
    DESK_SOME,           S,        4, 7,          0, 0, /* 7: some s of node 3 with node 6 */
    DESK_EVERY,          D,        3, 8,          0, 0, /* 8: every d of node 2 with node 7 */
    DESK_TARGET,         U,        1, 0,          0, 0, /* 9: u[1] */
    DESK_ALPHA,          10,       2, 9,          0, 0, /* 10: print node 9, binding node 1, condition node 8 */
};

/* What a call writes: a console that asks from several threads has one for each. */
struct buffers {
  uint32_t plan[DESK_PLAN_WORDS], work[DESK_MOST_WORDS], output[DESK_MOST_WORDS];
  uint32_t place, nodes, heavy, room, width, rows; /* each lent number has its own place */
};

static const char *name_of(uint32_t number) {
  for (size_t i = 0; i < COUNT(names); i++) {
    if (names[i].number == number) return names[i].name;
  }
  return "(no name)";
}

/* What the refusals that a caller can meet mean, and what their place counts. */
static const char *refusal(uint32_t status) {
  switch (status) {
  case DESK_QUESTION_LENGTH: return "the question isn't 1 to 64 nodes of 6 words";
  case DESK_NODE_FORM: return "a word breaks the form of the question node";
  case DESK_NODE_REFERENCES: return "the question node isn't referred to exactly once, or the last is no alpha";
  case DESK_UNKNOWN_RELATION: return "the question node names a table that isn't there";
  case DESK_VARIABLE_SCOPE: return "the question node uses a variable outside its scope, or binds it twice";
  case DESK_WIDTH: return "the question node asks for columns that aren't there, or for too many";
  case DESK_WRONG_TABLES: return "the catalogue doesn't fit the tables";
  case DESK_SHORT_PLAN_BUFFER: return "the plan buffer is too short";
  case DESK_ILLEGAL_PLAN: return "the plan node is illegal";
  case DESK_NO_ROOM: return "the work area has no room for the plan node";
  case DESK_SHORT_OUTPUT: return "the output is too short for the answer, the plan node";
  default: return "unknown status";
  }
}

/* Asks with a work area of so many words. */
static uint32_t ask(struct buffers *b, uint32_t mode, size_t work_length) {
  return desk_answer(catalogue, COUNT(catalogue), tables, COUNT(tables), question, COUNT(question), mode, b->plan,
                     DESK_PLAN_WORDS, b->work, work_length, b->output, DESK_MOST_WORDS, &b->place, &b->nodes, &b->heavy, &b->room,
                     &b->width, &b->rows);
}

static void show(const struct buffers *b, uint32_t status) {
  if (status != DESK_OK) {
    printf("refused with %" PRIu32 " at %" PRIu32 ": %s\n", status, b->place, refusal(status));
    return;
  }
  printf("%" PRIu32 " of %" PRIu32 " players are clear (%" PRIu32 " operations, %" PRIu32 " words of room):", b->rows,
         catalogue[2 * PLAYERS + 1], b->nodes, b->room);
  for (uint32_t row = 0; row < b->rows; row++) printf(" %s", name_of(b->output[row * b->width]));
  putchar('\n');
}

int main(void) {
  static struct buffers buffers;
  show(&buffers, ask(&buffers, DESK_SHORT, DESK_MOST_WORDS));
  show(&buffers, ask(&buffers, DESK_PLAIN, 30)); /* a work area that is too small */
  return fflush(stdout) == 0 ? 0 : 1;
}
