// rwlock.c with one change: a reader may enter while a writer holds the lock,
// when the data isn't the lock's and nobody may claim it.
// Refused: function ReadLock: not proved, first ReadLock/13 MakeClaim line 32
#include <vcc.h>
_(claimable) struct Data {
  int v;
};
_(claimable, volatile_owns) struct RwLock {
  volatile int state;
  struct Data *data;
  _(invariant state >= 0 ==> \mine(data) && data->\claim_count == state)
};
struct Ticket {
  _(ghost \claim read;)
};
void ReadLock(struct RwLock *l, struct Ticket *t _(ghost \claim c))
  _(maintains \wrapped(c) && \claims_object(c, l))
  _(maintains \mutable(t))
  _(writes t)
  _(ensures \wrapped(t->read) && \fresh(t->read) && \claims_only(t->read, l->data))
{
  int n = 0;
  int done = 0;
  do
    _(invariant \mutable(t))
  {
    done = 0;
    _(atomic c, l) { n = l->state; }
    if (n < 2147483647) {
      _(atomic c, l) {
        done = InterlockedCompareExchange(&l->state, n + 1, n) == n;
        _(ghost if (done) t->read = \make_claim({l->data}, \true);)
      }
    }
  } while (!done);
}
void ReadUnlock(struct RwLock *l, struct Ticket *t _(ghost \claim c))
  _(maintains \wrapped(c) && \claims_object(c, l))
  _(requires \mutable(t) && \wrapped(t->read) && \claims_only(t->read, l->data))
  _(writes t->read)
{
  int n = 0;
  int done = 0;
  do
    _(invariant \wrapped(t->read) && \claims_only(t->read, l->data))
  {
    done = 0;
    _(atomic c, l) { n = l->state; }
    if (n > 0) {
      _(atomic c, l) {
        done = InterlockedCompareExchange(&l->state, n - 1, n) == n;
        _(ghost if (done) \destroy_claim(t->read, {l->data});)
      }
    }
  } while (!done);
}
void WriteLock(struct RwLock *l _(ghost \claim c))
  _(maintains \wrapped(c) && \claims_object(c, l))
  _(ensures \wrapped0(l->data) && \fresh(l->data))
{
  int won = 0;
  do {
    _(atomic c, l) {
      won = InterlockedCompareExchange(&l->state, -1, 0) == 0;
      _(ghost if (won) l->\owns -= l->data;)
    }
  } while (!won);
}
void WriteUnlock(struct RwLock *l _(ghost \claim c))
  _(maintains \wrapped(c) && \claims_object(c, l))
  _(requires \wrapped0(l->data))
  _(writes l->data)
{
  _(atomic c, l) {
    l->state = 0;
    _(ghost l->\owns += l->data;)
  }
}
void main() {}
