// A field that changes only with the approval of its object's owner. A thread
// that owns the gauge knows what it wrote; a tank that owns it sets a limit.
#include <vcc.h>
struct Gauge {
  volatile int level;
  _(invariant \approves(\this->\owner, level))
};
_(claimable) struct Tank {
  struct Gauge *gauge;
  int limit;
  _(invariant \mine(gauge) && gauge->level <= limit)
};
void Set(struct Gauge *g)
  _(maintains \wrapped(g))
  _(writes g)
{
  int seen = 0;
  _(atomic g) { g->level = 5; }
  _(atomic g) { seen = g->level; }
  _(assert seen == 5)
}
void Raise(struct Tank *t _(ghost \claim c))
  _(maintains \wrapped(c) && \claims_object(c, t))
{
  struct Gauge *g = t->gauge;
  int seen = 0;
  int was = 0;
  _(atomic c, g) { seen = g->level; }
  if (seen < t->limit) {
    _(atomic c, t, g) {
      was = InterlockedCompareExchange(&g->level, seen + 1, seen);
    }
  }
}
void main() {}
