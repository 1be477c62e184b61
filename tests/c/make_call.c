#include "make_call.h"
#include "desk.h"

#define SLICE(slice) (slice).words, (slice).length

void make_call(const struct call *call, struct results *r) {
  switch (call->name) {
  case TRANSLATE:
    r->status = desk_translate(SLICE(call->catalogue), SLICE(call->question), call->mode, SLICE(call->plan), &r->place,
                               &r->nodes, &r->heavy);
    break;
  case RUN:
    r->status = desk_run(SLICE(call->catalogue), SLICE(call->tables), SLICE(call->plan), SLICE(call->work),
                         SLICE(call->output), &r->place, &r->nodes, &r->heavy, &r->room, &r->width, &r->rows);
    break;
  case ANSWER:
    r->status = desk_answer(SLICE(call->catalogue), SLICE(call->tables), SLICE(call->question), call->mode,
                            SLICE(call->plan), SLICE(call->work), SLICE(call->output), &r->place, &r->nodes, &r->heavy,
                            &r->room, &r->width, &r->rows);
    break;
  }
}
