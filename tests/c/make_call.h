/* A call of call_line.h made on the desk. */
#ifndef MAKE_CALL_H
#define MAKE_CALL_H

#include "call_line.h"

struct results {
  uint32_t status, place, nodes, heavy, room, width, rows;
};

void make_call(const struct call *call, struct results *r);

#endif
