// approval.c with one change: anybody may change the level.
// Refused: type Tank: not proved, first Tank/2 Stable line 7; function Set: not proved, first Set/8 Assert line 19
#include <vcc.h>
struct Gauge {
  volatile int level;
};
_(claimable) struct Tank {
  struct Gauge *gauge;
  int limit;
  _(invariant \mine(gauge) && gauge->level <= limit)
};
void Set(struct Gauge *g)
  _(maintains \wrapped(g))
  _(writes g)
{
  int seen = 0;
  _(atomic g) { g->level = 5; }
  _(atomic g) { seen = g->level; }
  _(assert seen == 5)
}
void Raise(struct Tank *t _(ghost \claim c))
  _(maintains \wrapped(c) && \claims_object(c, t))
{
  struct Gauge *g = t->gauge;
  int seen = 0;
  int was = 0;
  _(atomic c, g) { seen = g->level; }
  if (seen < t->limit) {
    _(atomic c, t, g) {
      was = InterlockedCompareExchange(&g->level, seen + 1, seen);
    }
  }
}
void main() {}
