/* Times the desk, SQLite and the hand-written peers on the questions that bench/questions.py writes, and prints ratios.
 *
 *   compare MILLISECONDS < BLOCKS    so much CPU time for each competitor of each question
 *   compare 0 < BLOCKS               each question once, by the desk alone: for counting instructions
 *
 * All answers are compared with the desk's before anything is timed. Then the competitors take turns, and the least CPU time of
 * each counts. SQLite's tables, indexes and prepared statements are made before; the desk gets its tables with each call. */
#define _GNU_SOURCE
#include "call_line.h"
#include "desk.h"
#include "peers.h"

#include <sqlite3.h>
#include <stdio.h>
#include <stdlib.h>
#include <string.h>
#include <time.h>

#define MOST_INDEXES 8
#define SLICE(slice) (slice).words, (slice).length

/* A second desk, where bench/run links one: OTHER_LIBRARY. */
extern __typeof__(desk_answer) other_answer __attribute__((weak));

enum who { DESK, OTHER, LITERAL, BARE, INDEXED, HAND, COMPETITORS };

struct question {
  char *name, *note, *literal, *well, *indexes[MOST_INDEXES];
  size_t words, index_count;
  struct call call;
  struct table tables[16];
  peer *peer;
};

struct competitor {
  int present, over; /* over: it was stopped at LONGEST */
  long long best, spent;
  sqlite3 *base;
  sqlite3_stmt *statement;
};

static struct answer answer; /* of the competitor that ran last */
static uint32_t status;

#define LONGEST 4000000000LL

static void fail(const char *what, const char *more) {
  fprintf(stderr, "compare: %s: %s\n", what, more);
  exit(2);
}

static long long now(void) {
  struct timespec t;
  clock_gettime(CLOCK_PROCESS_CPUTIME_ID, &t);
  return t.tv_sec * 1000000000LL + t.tv_nsec;
}

/* ---- SQLite */

static long long begun;

static int takes_too_long(void *unused) {
  (void)unused;
  return now() - begun > LONGEST;
}

static void execute(sqlite3 *base, const char *sql) {
  char *message = NULL;
  if (sqlite3_exec(base, sql, NULL, NULL, &message) != SQLITE_OK) fail(sql, message);
}

static sqlite3_stmt *prepare(sqlite3 *base, const char *sql) {
  sqlite3_stmt *statement;
  if (sqlite3_prepare_v2(base, sql, -1, &statement, NULL) != SQLITE_OK) fail(sql, sqlite3_errmsg(base));
  return statement;
}

static void store(sqlite3 *base, size_t number, struct table table) {
  char create[300], insert[100];
  int c = sprintf(create, "CREATE TABLE t%zu (", number), i = sprintf(insert, "INSERT INTO t%zu VALUES (", number);
  for (size_t column = 1; column <= table.width; column++) {
    c += sprintf(create + c, "%sc%zu INTEGER NOT NULL", column > 1 ? ", " : "", column);
    i += sprintf(insert + i, column > 1 ? ", ?" : "?");
  }
  execute(base, strcat(create, ")"));
  sqlite3_stmt *statement = prepare(base, strcat(insert, ")"));
  for (const uint32_t *at = table.words, *end = at + table.rows * table.width; at < end;) {
    for (int column = 1; column <= (int)table.width; column++) sqlite3_bind_int64(statement, column, *at++);
    sqlite3_step(statement);
    sqlite3_reset(statement);
  }
  sqlite3_finalize(statement);
}

static sqlite3 *new_base(const struct question *q, int indexed) {
  sqlite3 *base;
  if (sqlite3_open(":memory:", &base) != SQLITE_OK) fail("no database", "");
  execute(base, "BEGIN");
  for (size_t i = 0; i < q->call.catalogue.length / 2; i++) store(base, i, q->tables[i]);
  for (size_t i = 0; indexed && i < q->index_count; i++) execute(base, q->indexes[i]);
  execute(base, "COMMIT");
  execute(base, "ANALYZE");
  sqlite3_progress_handler(base, 100000, takes_too_long, NULL);
  return base;
}

/* 0 when it was stopped */
static int run_statement(sqlite3_stmt *statement) {
  int width = sqlite3_column_count(statement), result;
  uint32_t *to = answer.words, *end = to + MOST_WORDS;
  begun = now();
  for (answer.rows = 0; (result = sqlite3_step(statement)) == SQLITE_ROW; answer.rows++) {
    if (end - to < width) fail("SQLite has more rows than the desk", sqlite3_sql(statement));
    for (int column = 0; column < width; column++) *to++ = (uint32_t)sqlite3_column_int64(statement, column);
  }
  answer.width = (size_t)width;
  sqlite3_reset(statement);
  return result == SQLITE_DONE;
}

/* ---- one competitor, one call */

static void run_desk(const struct question *q, __typeof__(desk_answer) desk) {
  const struct call *c = &q->call;
  uint32_t place, nodes, heavy, room, width, rows;
  status = desk(SLICE(c->catalogue), SLICE(c->tables), SLICE(c->question), c->mode, SLICE(c->plan), SLICE(c->work),
                answer.words, MOST_WORDS, &place, &nodes, &heavy, &room, &width, &rows);
  answer.rows = rows, answer.width = width, answer.room = room;
}

static void run(enum who who, const struct question *q, struct competitor *competitor) {
  long long start = now();
  if (who == DESK) run_desk(q, desk_answer);
  else if (who == OTHER) run_desk(q, other_answer);
  else if (who == HAND) q->peer(q->tables, &answer);
  else competitor->over = !run_statement(competitor->statement);
  long long taken = now() - start;
  if (competitor->best == 0 || taken < competitor->best) competitor->best = taken;
  competitor->spent += taken;
}

/* ---- one question, all competitors */

static size_t compared_width;

static int compare_rows(const void *a, const void *b) {
  const uint32_t *x = a, *y = b;
  for (size_t i = 0; i < compared_width; i++) {
    if (x[i] != y[i]) return x[i] < y[i] ? -1 : 1;
  }
  return 0;
}

static void must_be_same(enum who who, const struct question *q, const struct answer *desk) {
  int sql = who == LITERAL || who == BARE || who == INDEXED;
  compared_width = answer.width;
  if (sql) qsort(answer.words, answer.rows, answer.width * sizeof(uint32_t), compare_rows);
  if (answer.rows != desk->rows || answer.width != desk->width || (!sql && answer.room != desk->room) ||
      memcmp(answer.words, desk->words, desk->rows * desk->width * sizeof(uint32_t)) != 0) {
    fprintf(stderr, "%s, competitor %d: rows %zu, room %zu; the desk: rows %zu, room %zu\n", q->name, who, answer.rows, answer.room,
            desk->rows, desk->room);
    exit(1);
  }
}

static void enter(const struct question *q, struct competitor *all) {
  all[DESK].present = 1;
  all[OTHER].present = other_answer != NULL;
  all[HAND].present = q->peer != NULL;
  const char *texts[COMPETITORS] = {[LITERAL] = q->literal, [BARE] = q->well, [INDEXED] = q->well};
  for (int who = LITERAL; who <= INDEXED; who++) {
    if (texts[who] == NULL) continue;
    all[who].present = 1;
    all[who].base = new_base(q, who == INDEXED);
    all[who].statement = prepare(all[who].base, texts[who]);
  }
}

static void leave(struct competitor *all) {
  for (int who = 0; who < COMPETITORS; who++) {
    sqlite3_finalize(all[who].statement);
    sqlite3_close(all[who].base);
  }
}

/* ---- the table */

struct line {
  char *name, *note;
  size_t words;
  long long desk, hand;
};
static struct line lines[2000];
static size_t line_count;

static const struct line *line_of(const char *name, size_t words) {
  for (size_t i = 0; i < line_count; i++) {
    if (lines[i].words == words && strcmp(lines[i].name, name) == 0) return &lines[i];
  }
  return NULL;
}

static void print_ratio(const char *sign, long long a, long long b) {
  double ratio = (double)a / (double)b;
  printf("%s%.*f", sign, ratio < 0.095 ? 3 : ratio < 9.95 ? 2 : 0, ratio);
}

static void print_against(const struct competitor *all, enum who who) {
  if (all[who].present) print_ratio(all[who].over ? "<" : "", all[DESK].best, all[who].best);
  putchar('|');
}

static void print_line(const struct question *q, const struct competitor *all, size_t rows) {
  const char *note = q->note ? q->note : "";
  printf("|%s%s|%zu|%zu|", q->name, note, q->words, rows);
  print_against(all, LITERAL);
  print_against(all, BARE);
  print_against(all, INDEXED);
  print_against(all, HAND);
  if (other_answer != NULL) print_against(all, OTHER);
  const struct line *quarter = line_of(q->name, q->words / 4);
  if (quarter != NULL && strcmp(quarter->note, note) != 0) quarter = NULL;
  if (quarter != NULL) print_ratio("", all[DESK].best, quarter->desk);
  putchar('|');
  if (quarter != NULL && quarter->hand) print_ratio("", all[HAND].best, quarter->hand);
  puts("|");
  fflush(stdout);
  lines[line_count++] = (struct line){strdup(q->name), strdup(note), q->words, all[DESK].best, all[HAND].best};
}

static void print_section(const char *title) {
  const char *other = other_answer != NULL ? "other desk|" : "";
  printf("\n## %s\n\n|question|words|rows|SQLite, literal|bare|indexed|by hand|%sfour times the words|by hand|\n", title, other);
  printf("|-|-|-|-|-|-|-|%s-|-|\n", *other ? "-|" : "");
}

static void compare(const struct question *q, long long enough) {
  static struct answer desk;
  struct competitor all[COMPETITORS] = {0};
  run(DESK, q, &all[DESK]);
  if (enough == 0) return;
  if (status == 10 && q->well == NULL) return; /* an example without room: the next one has fewer distinct rows */
  if (status != 0) fail("refused", q->name);
  desk = answer;
  enter(q, all);
  for (int who = OTHER; who < COMPETITORS; who++) {
    if (!all[who].present) continue;
    run(who, q, &all[who]);
    if (!all[who].over) must_be_same(who, q, &desk);
  }
  for (int running = 1; running;) {
    running = 0;
    for (int who = 0; who < COMPETITORS; who++) {
      if (!all[who].present || all[who].over || all[who].spent > enough) continue;
      run(who, q, &all[who]);
      running = 1;
    }
  }
  print_line(q, all, desk.rows);
  leave(all);
}

/* ---- reading */

static void take_line(struct question *q, const char *key, char *rest) {
  if (strcmp(key, "question") == 0) {
    q->words = strtoul(rest, &rest, 10);
    q->name = strdup(rest + 1);
  } else if (strcmp(key, "call") == 0) {
    read_call(rest, &q->call);
    const uint32_t *at = q->call.tables.words, *pairs = q->call.catalogue.words;
    for (size_t i = 0; i < q->call.catalogue.length / 2; i++) {
      q->tables[i] = (struct table){at, pairs[i * 2 + 1], pairs[i * 2]};
      at += q->tables[i].rows * q->tables[i].width;
    }
  } else if (strcmp(key, "note") == 0) q->note = strdup(rest);
  else if (strcmp(key, "literal") == 0) q->literal = strdup(rest);
  else if (strcmp(key, "well") == 0) q->well = strdup(rest);
  else if (strcmp(key, "index") == 0 && q->index_count < MOST_INDEXES) q->indexes[q->index_count++] = strdup(rest);
  else if (strcmp(key, "peer") == 0 && (q->peer = peer_named(rest)) != NULL) return;
  else fail("a wrong line", rest);
}

static void forget(struct question *q) {
  free_call(&q->call);
  free(q->name), free(q->note), free(q->literal), free(q->well);
  for (size_t i = 0; i < q->index_count; i++) free(q->indexes[i]);
  *q = (struct question){0};
}

int main(int argc, char **argv) {
  if (argc != 2) fail("usage", "compare MILLISECONDS < BLOCKS");
  long long enough = atoll(argv[1]) * 1000000LL;
  static struct question q;
  char *line = NULL;
  size_t size = 0;
  ssize_t length;
  while ((length = getline(&line, &size, stdin)) != -1) {
    line[length - 1] = '\0';
    char *space = strchr(line, ' ');
    if (strcmp(line, "end") == 0) {
      if (line_of(q.name, q.words) == NULL) compare(&q, enough);
      forget(&q);
      continue;
    }
    if (space == NULL) fail("a wrong line", line);
    *space = '\0';
    if (strcmp(line, "section") == 0) print_section(space + 1);
    else take_line(&q, line, space + 1);
  }
  free(line);
  return 0;
}
