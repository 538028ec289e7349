// counter.c with one change: nothing says that the counter only grows.
// Refused: function f: not proved, first f/4 ClaimStable line 8
_(claimable) struct Ctr { volatile int n; };
void f(struct Ctr *p) _(writes p) _(requires \wrapped(p)) {
int v = 0;
_(ghost \claim d;)
_(atomic p) { v = p->n;
_(ghost d = \make_claim({p}, p->n >= v);) }
_(assert p->n >= v) }
void main() {}
