// lastref.c with one change: the last one doesn't take the resource out of
// the counter.
// Refused: function Drop: not proved, first Drop/19 Unwrap line 68
#include <vcc.h>
_(claimable) struct Resource {
  int x;
};
_(claimable, volatile_owns) struct Counter {
  volatile int n;
  struct Resource *r;
  _(invariant n > 0 ==> \mine(r) && r->\claim_count == n)
  _(invariant \old(n) <= 0 ==> n <= 0)
};
struct Handle {
  _(ghost \claim k;)
};
void Init(struct Counter *p, struct Resource *r, struct Handle *h)
  _(requires \mutable(p) && \mutable(h) && \wrapped0(r))
  _(writes p, r, h)
  _(ensures \wrapped(p) && \wrapped(h->k) && \claims_only(h->k, p->r))
{
  p->n = 1;
  p->r = r;
  _(ghost p->\owns = {r};)
  _(ghost h->k = \make_claim({r}, \true);)
  _(wrap p)
}
int Take(struct Counter *p, struct Handle *h _(ghost \claim c))
  _(maintains \wrapped(c) && \claims_object(c, p))
  _(maintains \mutable(h))
  _(writes h)
  _(ensures \result != 0 ==> \wrapped(h->k) && \claims_only(h->k, p->r))
{
  int n = 0;
  int done = 0;
  _(atomic c, p) { n = p->n; }
  if (n > 0 && n < 2147483647) {
    _(atomic c, p) {
      done = InterlockedCompareExchange(&p->n, n + 1, n) == n;
      _(ghost if (done) h->k = \make_claim({p->r}, \true);)
    }
  }
  return done;
}
void Drop(struct Counter *p, struct Handle *h _(ghost \claim c))
  _(maintains \wrapped(c) && \claims_object(c, p))
  _(requires \mutable(h) && \wrapped(h->k) && \claims_only(h->k, p->r))
  _(writes h->k)
{
  int n = 0;
  int done = 0;
  struct Resource *r = p->r;
  do
    _(invariant \wrapped(h->k) && \claims_only(h->k, r))
  {
    done = 0;
    _(atomic c, p) { n = p->n; }
    if (n > 0) {
      _(atomic c, p) {
        done = InterlockedCompareExchange(&p->n, n - 1, n) == n;
        _(ghost if (done) {
          \destroy_claim(h->k, {r});
        })
      }
    }
  } while (!done);
  if (n == 1) {
    _(unwrap r)
    free(r);
  }
}
void main() {}
