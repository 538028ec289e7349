// flagged.c with one change: who leaves takes 1 off the word, and not 2.
// Refused: function Leave: not proved, first Leave/16 Invariant line 48
#include <vcc.h>
_(claimable) struct Room {
  int x;
};
_(claimable) struct Gate {
  volatile int word;
  struct Room *room;
  _(invariant word >= 0)
  _(invariant \mine(room))
  _(invariant room->\claim_count == word / 2)
  _(invariant \old(word) % 2 == 1 ==> word % 2 == 1 && word <= \old(word))
};
struct Pass {
  _(ghost \claim in;)
};
int Enter(struct Gate *g, struct Pass *t _(ghost \claim c))
  _(maintains \wrapped(c) && \claims_object(c, g))
  _(maintains \mutable(t))
  _(writes t)
  _(ensures \result != 0 ==> \wrapped(t->in) && \claims_only(t->in, g->room))
{
  int w = 0;
  int done = 0;
  _(atomic c, g) { w = g->word; }
  if (w % 2 == 0 && w < 2147483646) {
    _(atomic c, g) {
      done = InterlockedCompareExchange(&g->word, w + 2, w) == w;
      _(ghost if (done) t->in = \make_claim({g->room}, \true);)
    }
  }
  return done;
}
void Leave(struct Gate *g, struct Pass *t _(ghost \claim c))
  _(maintains \wrapped(c) && \claims_object(c, g))
  _(requires \mutable(t) && \wrapped(t->in) && \claims_only(t->in, g->room))
  _(writes t->in)
{
  int w = 0;
  int done = 0;
  do
    _(invariant \wrapped(t->in) && \claims_only(t->in, g->room))
  {
    done = 0;
    _(atomic c, g) { w = g->word; }
    if (w >= 2) {
      _(atomic c, g) {
        done = InterlockedCompareExchange(&g->word, w - 1, w) == w;
        _(ghost if (done) \destroy_claim(t->in, {g->room});)
      }
    }
  } while (!done);
}
int Shut(struct Gate *g _(ghost \claim c))
  _(maintains \wrapped(c) && \claims_object(c, g))
{
  int w = 0;
  int done = 0;
  _(atomic c, g) { w = g->word; }
  if (w % 2 == 0) {
    _(atomic c, g) {
      done = InterlockedCompareExchange(&g->word, w + 1, w) == w;
    }
  }
  return done;
}
void main() {}
