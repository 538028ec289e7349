// A semaphore whose permits are claims on what it guards: as many claims are
// out as permits were taken. Whoever gives a permit back shows by the claim
// that one was taken, so the count never passes its limit.
#include <vcc.h>
_(claimable) struct Pool {
  int size;
};
_(claimable) struct Semaphore {
  volatile int left;
  int limit;
  struct Pool *pool;
  _(invariant left >= 0)
  _(invariant \mine(pool))
  _(invariant pool->\claim_count == limit - left)
};
struct Permit {
  _(ghost \claim held;)
};
void Down(struct Semaphore *s, struct Permit *t _(ghost \claim c))
  _(maintains \wrapped(c) && \claims_object(c, s))
  _(maintains \mutable(t))
  _(writes t)
  _(ensures \wrapped(t->held) && \fresh(t->held) && \claims_only(t->held, s->pool))
{
  int n = 0;
  int got = 0;
  do
    _(invariant \mutable(t))
  {
    got = 0;
    _(atomic c, s) { n = s->left; }
    if (n > 0) {
      _(atomic c, s) {
        got = InterlockedCompareExchange(&s->left, n - 1, n) == n;
        _(ghost if (got) t->held = \make_claim({s->pool}, \true);)
      }
    }
  } while (!got);
}
void Up(struct Semaphore *s, struct Permit *t _(ghost \claim c))
  _(maintains \wrapped(c) && \claims_object(c, s))
  _(maintains \mutable(t))
  _(requires \wrapped(t->held) && \claims_only(t->held, s->pool))
  _(writes t->held)
{
  int n = 0;
  _(atomic c, s) {
    n = InterlockedIncrement(&s->left);
    _(ghost \destroy_claim(t->held, {s->pool});)
  }
}
void Worker(struct Semaphore *s, struct Permit *t _(ghost \claim c))
  _(requires \wrapped(c) && \claims_object(c, s) && \wrapped(t))
  _(writes c, t)
{
  _(unwrapping t) {
    Down(s, t _(ghost c));
    Up(s, t _(ghost c));
  }
}
void main() {}
