_(claimable) struct Counter {
  volatile int n;
  _(invariant 0 <= n && \old(n) <= n)
};
int Look(struct Counter *c, int least _(ghost \claim k))
  _(maintains \wrapped(k) && \claims_object(k, c))
  _(requires \claims(k, least <= c->n))
  _(ensures least <= \result)
{
  int seen;
  _(atomic k, c) {
    seen = c->n;
  }
  return seen;
}
void Watch(struct Counter *c)
  _(requires \wrapped(c))
  _(writes c)
{
  int first;
  int later;
  _(ghost \claim k;)
  _(atomic c) {
    first = c->n;
    _(ghost k = \make_claim({c}, first <= c->n);)
  }
  later = Look(c, first _(ghost k));
  _(assert first <= later)
  _(ghost \destroy_claim(k, {c});)
}
void main()
{
}
