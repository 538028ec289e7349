// atomic.c with one change: the block lists NULL, which is no closed object.
// Refused: function f: not proved, first f/2 AtomicClosed line 4
_(claimable) struct Ctr { volatile int n; _(invariant \old(n) <= n) };
void f(struct Ctr *p) _(requires \wrapped(p)) { _(atomic p, NULL) { } }
void main() {}
