// bounded.c with one change: Remove goes below 0.
// Refused: function Remove: not proved, first Remove/11 Invariant line 27
#include <vcc.h>
_(claimable) struct Counter {
  volatile int n;
  int limit;
  _(invariant 0 <= n && n <= limit)
};
int Add(struct Counter *p _(ghost \claim c))
  _(maintains \wrapped(c) && \claims_object(c, p))
{
  int v = 0;
  int done = 0;
  _(atomic c, p) { v = p->n; }
  if (v < p->limit) {
    _(atomic c, p) { done = InterlockedCompareExchange(&p->n, v + 1, v) == v; }
  }
  return done;
}
int Remove(struct Counter *p _(ghost \claim c))
  _(maintains \wrapped(c) && \claims_object(c, p))
{
  int v = 0;
  int done = 0;
  _(atomic c, p) { v = p->n; }
  if (v >= 0) {
    _(atomic c, p) { done = InterlockedCompareExchange(&p->n, v - 1, v) == v; }
  }
  return done;
}
void main() {}
