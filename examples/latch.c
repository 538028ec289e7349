// A latch that counts down to 0 and stays there. Who saw 0 makes a claim that
// it is 0, and can count on it from there on.
#include <vcc.h>
_(claimable) struct Latch {
  volatile int left;
  _(invariant 0 <= left && left <= \old(left))
};
struct Proof {
  _(ghost \claim k;)
};
void CountDown(struct Latch *l _(ghost \claim c))
  _(requires \wrapped(c) && \claims_object(c, l))
  _(writes c)
{
  int n = 0;
  int was = 0;
  _(atomic c, l) { n = l->left; }
  if (n > 0) {
    _(atomic c, l) { was = InterlockedCompareExchange(&l->left, n - 1, n); }
  }
}
void Await(struct Latch *l, struct Proof *p)
  _(maintains \wrapped(l) && \mutable(p))
  _(writes l, p)
  _(ensures \wrapped(p->k) && \claims_object(p->k, l) && \claims(p->k, l->left == 0))
{
  int n = 0;
  do
    _(invariant \wrapped(l) && \mutable(p))
  {
    _(atomic l) {
      n = l->left;
      _(ghost if (n == 0) p->k = \make_claim({l}, l->left == 0);)
    }
  } while (n != 0);
}
void main()
{
  struct Latch *l = malloc(sizeof(struct Latch));
  struct Proof *p = malloc(sizeof(struct Proof));
  int n = 0;
  if (l != NULL && p != NULL) {
    l->left = 1;
    _(wrap l)
    _(ghost \claim c = \make_claim({l}, \true);)
    vcc_spawn(CountDown, l _(ghost c));
    Await(l, p);
    _(atomic l) { n = l->left; }
    _(assert n == 0)
  }
}
