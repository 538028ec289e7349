// rundown.c with one change: anybody may say that the room is gone.
// Refused: function RunDown: not proved, first RunDown/1 LoopInv line 40
#include <vcc.h>
_(claimable) struct Room {
  int x;
};
_(claimable, volatile_owns) struct Gate {
  volatile int word;
  struct Room *room;
  _(ghost volatile int gone;)
  _(invariant word >= 0 && (gone != 0 ==> word % 2 == 1))
  _(invariant gone == 0 ==> \mine(room) && room->\claim_count == word / 2)
  _(invariant \old(word) % 2 == 1 ==> word % 2 == 1 && word <= \old(word))
};
struct Pass {
  _(ghost \claim in;)
};
int Enter(struct Gate *g, struct Pass *t _(ghost \claim c))
  _(maintains \wrapped(c) && \claims_object(c, g))
  _(maintains \mutable(t))
  _(writes t)
  _(ensures \result != 0 ==> \wrapped(t->in) && \claims_only(t->in, g->room))
{
  int w = 0;
  int done = 0;
  _(atomic c, g) { w = g->word; }
  if (w % 2 == 0 && w < 2147483646) {
    _(atomic c, g) {
      done = InterlockedCompareExchange(&g->word, w + 2, w) == w;
      _(ghost if (done) t->in = \make_claim({g->room}, \true);)
    }
  }
  return done;
}
void RunDown(struct Gate *g)
  _(requires \wrapped(g) && g->gone == 0)
  _(writes g)
{
  int w = 0;
  do
    _(invariant \wrapped(g) && g->gone == 0)
  {
    _(atomic g) {
      w = g->word;
      _(ghost if (w == 1) {
        g->\owns -= g->room;
        g->gone = 1;
      })
    }
  } while (w != 1);
  struct Room *r = g->room;
  _(unwrap r)
  free(r);
}
void main() {}
