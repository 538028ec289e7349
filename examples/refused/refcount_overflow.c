// refcount.c with one change: the count may be the greatest already.
// Refused: function Take: not proved, first Take/7 Range line 9
_(claimable) struct Res { int x; };
_(claimable) struct Cnt { volatile int n; struct Res *r; _(invariant \mine(r)) _(invariant r->\claim_count == n) };
int Take(struct Cnt *p _(ghost \claim c)) _(maintains \wrapped(c) && \claims_object(c, p)) {
  int v = 0; int got = 0; _(ghost \claim k;)
  _(atomic c, p) { v = p->n; }
  if (v >= 0) {
    _(atomic c, p) { got = InterlockedCompareExchange(&p->n, v + 1, v) == v; _(ghost if (got) k = \make_claim({p->r}, \true);) }
  }
  return got;
}
void main() {}
