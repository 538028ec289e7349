struct Counter {
  volatile int n;
  _(invariant 0 <= n && \old(n) <= n)
};
void Increment(struct Counter *c)
  _(requires \wrapped(c))
{
  int seen;
  int was;
  _(atomic c) {
    seen = c->n;
  }
  if (seen < 1000) {
    _(atomic c) {
      was = InterlockedCompareExchange(&c->n, seen + 1, seen);
    }
  }
}
void main()
{
}
