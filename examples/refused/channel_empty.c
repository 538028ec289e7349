// channel.c with one change: the consumer takes the cell where it is empty.
// Refused: function Consume: not proved, first Consume/11 Assert line 44
#include <vcc.h>
struct Cell {
  int value;
};
_(claimable, volatile_owns) struct Channel {
  volatile int state;
  struct Cell *cell;
  _(invariant state == 0 || state == 2 ==> \mine(cell))
  _(invariant state == 2 ==> cell->value > 0)
};
int Produce(struct Channel *p, int value _(ghost \claim c))
  _(maintains \wrapped(c) && \claims_object(c, p))
  _(requires value > 0)
{
  int won = 0;
  struct Cell *x = p->cell;
  _(atomic c, p) {
    won = InterlockedCompareExchange(&p->state, 1, 0) == 0;
    _(ghost if (won) p->\owns -= x;)
  }
  if (won) {
    _(unwrapping x) { x->value = value; }
    _(atomic c, p) {
      p->state = 2;
      _(ghost p->\owns += x;)
    }
  }
  return won;
}
int Consume(struct Channel *p _(ghost \claim c))
  _(maintains \wrapped(c) && \claims_object(c, p))
{
  int won = 0;
  int value = 0;
  struct Cell *x = p->cell;
  _(atomic c, p) {
    won = InterlockedCompareExchange(&p->state, 1, 0) == 0;
    _(ghost if (won) p->\owns -= x;)
  }
  if (won) {
    value = x->value;
    _(assert value > 0)
    _(atomic c, p) {
      p->state = 0;
      _(ghost p->\owns += x;)
    }
  }
  return value;
}
void main() {}
