// A container that has its lock and its data. Who has a claim on the container
// may use the lock, which the container owns.
#include <vcc.h>
struct Data {
  int v;
  _(invariant v >= 0)
};
_(volatile_owns) struct Lock {
  volatile int locked;
  struct Data *guarded;
  _(invariant locked == 0 ==> \mine(guarded))
};
_(claimable) struct Container {
  struct Lock *lock;
  struct Data *data;
  _(invariant \mine(lock) && lock->guarded == data)
};
struct Container *Make(struct Lock *l, struct Data *d)
  _(requires \mutable(l) && \wrapped(d))
  _(writes l, d)
  _(ensures \result != NULL ==> \wrapped(\result))
{
  struct Container *x = malloc(sizeof(struct Container));
  if (x != NULL) {
    l->locked = 0;
    l->guarded = d;
    _(ghost l->\owns = {d};)
    _(wrap l)
    x->lock = l;
    x->data = d;
    _(wrap x)
  }
  return x;
}
void Set(struct Container *x, int v _(ghost \claim c))
  _(requires v >= 0)
  _(maintains \wrapped(c) && \claims_object(c, x))
{
  struct Lock *l = x->lock;
  struct Data *d = x->data;
  int won = 0;
  do {
    _(atomic c, l) {
      won = InterlockedCompareExchange(&l->locked, 1, 0) == 0;
      _(ghost if (won) l->\owns -= d;)
    }
  } while (!won);
  _(unwrapping d) { d->v = v; }
  _(atomic c, l) {
    l->locked = 0;
    _(ghost l->\owns += d;)
  }
}
void main() {}
