// trylock.c with one change: it stores, without looking whether the lock is
// still free.
// Refused: function TryAcquire: not proved, first TryAcquire/11 Owns line 22
#include <vcc.h>
struct Data {
  int v;
};
_(claimable, volatile_owns) struct Lock {
  volatile int busy;
  struct Data *data;
  _(invariant busy == 0 ==> \mine(data))
};
int TryAcquire(struct Lock *l _(ghost \claim c))
  _(maintains \wrapped(c) && \claims_object(c, l))
  _(ensures \result != 0 ==> \wrapped(l->data) && \fresh(l->data))
{
  int was = 1;
  _(atomic c, l) { was = l->busy; }
  if (was == 0) {
    _(atomic c, l) {
      l->busy = 1;
      _(ghost l->\owns -= l->data;)
    }
  }
  return was == 0;
}
void Release(struct Lock *l _(ghost \claim c))
  _(maintains \wrapped(c) && \claims_object(c, l))
  _(requires \wrapped(l->data))
  _(writes l->data)
{
  _(atomic c, l) {
    l->busy = 0;
    _(ghost l->\owns += l->data;)
  }
}
int TrySet(struct Lock *l, int v _(ghost \claim c))
  _(maintains \wrapped(c) && \claims_object(c, l))
{
  int got = TryAcquire(l _(ghost c));
  if (got) {
    struct Data *d = l->data;
    _(unwrapping d) { d->v = v; }
    Release(l _(ghost c));
  }
  return got;
}
void main() {}
