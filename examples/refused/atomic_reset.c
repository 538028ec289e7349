// atomic.c with one change: a counter that only grows is set back.
// Refused: function f: not proved, first f/5 Invariant line 4
_(claimable) struct Ctr { volatile int n; _(invariant \old(n) <= n) };
void f(struct Ctr *p) _(requires \wrapped(p)) { _(atomic p, p) { p->n = 0; } }
void main() {}
