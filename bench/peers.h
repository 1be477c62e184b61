/* Each question of bench/questions.py once more, written by hand for it alone. */
#ifndef PEERS_H
#define PEERS_H

#include <stddef.h>
#include <stdint.h>

#define MOST_WORDS 16384

struct table {
  const uint32_t *words;
  size_t rows, width;
};

/* The answer's rows, ascending and without repeats, and the room that the desk's values would take. */
struct answer {
  uint32_t words[MOST_WORDS];
  size_t rows, width, room;
};

typedef void peer(const struct table *tables, struct answer *answer);

/* The peer of that name, or NULL. */
peer *peer_named(const char *name);

#endif
