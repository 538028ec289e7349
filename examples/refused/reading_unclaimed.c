// reading.c with one change: the claim of a reading may be about anything.
// Refused: type Reading: not proved, first Reading/2 Stable line 8; function Again: not proved, first Again/2 AtomicClosed line 41
#include <vcc.h>
_(claimable) struct Counter {
  volatile int n;
  _(invariant \old(n) <= n)
};
struct Reading {
  struct Counter *c;
  int least;
  _(ghost \claim k;)
  _(invariant \mine(k))
  _(invariant least <= c->n)
};
struct Reading *Read(struct Counter *c)
  _(maintains \wrapped(c))
  _(writes c)
  _(ensures \result != NULL ==> \wrapped(\result))
{
  int seen = 0;
  _(ghost \claim k;)
  struct Reading *r = malloc(sizeof(struct Reading));
  if (r != NULL) {
    _(atomic c) {
      seen = c->n;
      _(ghost k = \make_claim({c}, seen <= c->n);)
    }
    r->c = c;
    r->least = seen;
    _(ghost r->k = k;)
    _(wrap r)
  }
  return r;
}
int Again(struct Reading *r)
  _(maintains \wrapped(r))
  _(ensures r->least <= \result)
{
  struct Counter *c = r->c;
  int seen = 0;
  _(atomic c) { seen = c->n; }
  return seen;
}
void main() {}
