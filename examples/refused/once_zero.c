// once.c with one change: the claim's property allows 0, which may change.
// Refused: function Reader: not proved, first Reader/4 ClaimStable line 30
#include <vcc.h>
_(claimable) struct Cell {
  volatile int value;
  _(invariant \old(value) != 0 ==> value == \old(value))
};
int Write(struct Cell *p, int v _(ghost \claim c))
  _(maintains \wrapped(c) && \claims_object(c, p))
{
  int was = 0;
  _(atomic c, p) { was = InterlockedCompareExchange(&p->value, v, 0); }
  return was == 0;
}
void Writer(struct Cell *p, int v _(ghost \claim c))
  _(requires \wrapped(c) && \claims_object(c, p))
  _(writes c)
{
  int first = Write(p, v _(ghost c));
}
void Reader(struct Cell *p)
  _(maintains \wrapped(p))
  _(writes p)
{
  int v = 0;
  int w = 0;
  _(ghost \claim k;)
  _(atomic p) {
    v = p->value;
    _(ghost if (v != 0) k = \make_claim({p}, p->value == v);)
  }
  if (v != 0) {
    _(atomic p) { w = p->value; }
    _(assert w == v)
  }
}
void main()
{
  struct Cell *p = malloc(sizeof(struct Cell));
  if (p != NULL) {
    p->value = 0;
    _(wrap p)
    _(ghost \claim a = \make_claim({p}, \true);)
    _(ghost \claim b = \make_claim({p}, \true);)
    vcc_spawn(Writer, p, 1 _(ghost a));
    vcc_spawn(Writer, p, 2 _(ghost b));
    Reader(p);
  }
}
