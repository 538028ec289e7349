// approval.c with one change: the tank has no part in the step that raises
// the level.
// Refused: function Raise: not proved, first Raise/11 Write line 32
#include <vcc.h>
struct Gauge {
  volatile int level;
  _(invariant \approves(\this->\owner, level))
};
_(claimable) struct Tank {
  struct Gauge *gauge;
  int limit;
  _(invariant \mine(gauge) && gauge->level <= limit)
};
void Set(struct Gauge *g)
  _(maintains \wrapped(g))
  _(writes g)
{
  int seen = 0;
  _(atomic g) { g->level = 5; }
  _(atomic g) { seen = g->level; }
  _(assert seen == 5)
}
void Raise(struct Tank *t _(ghost \claim c))
  _(maintains \wrapped(c) && \claims_object(c, t))
{
  struct Gauge *g = t->gauge;
  int seen = 0;
  int was = 0;
  _(atomic c, g) { seen = g->level; }
  if (seen < t->limit) {
    _(atomic c, g) {
      was = InterlockedCompareExchange(&g->level, seen + 1, seen);
    }
  }
}
void main() {}
