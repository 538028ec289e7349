// counter.c with one change: no claim is made of what was read.
// Refused: function f: not proved, first f/4 Assert line 9
_(claimable) struct Ctr { volatile int n; _(invariant \old(n) <= n) };
void f(struct Ctr *p) _(writes p) _(requires \wrapped(p)) {
int v = 0;
_(ghost \claim d;)
_(atomic p) { v = p->n;
}
_(assert p->n >= v) }
void main() {}
