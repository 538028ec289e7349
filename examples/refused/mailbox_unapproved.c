// mailbox.c with one change: anybody may change taken. The receiver owns the
// mailbox, and was told that taken is 0, but knows no more of it as soon as
// others have run.
// Refused: function Receive: not proved, first Receive/1 LoopInv line 32; function Receiver: not proved, first Receiver/2 Requires line 49; function main: not proved, first main/25 Requires line 67
#include <vcc.h>
struct Message {
  int text;
  _(invariant text > 0)
};
_(claimable, volatile_owns) struct Mailbox {
  volatile struct Message *slot;
  _(ghost volatile int taken;)
  _(invariant slot != NULL && taken == 0 ==> \mine(slot))
};
void Send(struct Mailbox *b, struct Message *m _(ghost \claim c))
  _(maintains \wrapped(c) && \claims_object(c, b))
  _(requires \wrapped(m))
  _(writes c, m)
{
  _(atomic c, b) {
    b->slot = m;
    _(ghost b->\owns += m;)
  }
}
struct Message *Receive(struct Mailbox *b)
  _(maintains \wrapped(b))
  _(requires b->taken == 0)
  _(writes b)
  _(ensures \wrapped(\result) && \fresh(\result))
{
  struct Message *m = NULL;
  do
    _(invariant \wrapped(b) && b->taken == 0)
  {
    _(atomic b) {
      m = b->slot;
      _(ghost if (m != NULL) {
        b->\owns -= m;
        b->taken = 1;
      })
    }
  } while (m == NULL);
  return m;
}
void Receiver(struct Mailbox *b)
  _(requires \wrapped(b) && b->taken == 0)
  _(writes b)
{
  struct Message *m = Receive(b);
  _(assert m->text > 0)
  _(unwrap m)
  free(m);
}
void main()
{
  struct Mailbox *b = malloc(sizeof(struct Mailbox));
  struct Message *m = malloc(sizeof(struct Message));
  if (b != NULL && m != NULL) {
    m->text = 1;
    _(wrap m)
    b->slot = NULL;
    _(ghost b->taken = 0;)
    _(ghost b->\owns = {};)
    _(wrap b)
    _(ghost \claim c = \make_claim({b}, \true);)
    vcc_spawn(Send, b, m _(ghost c));
    Receiver(b);
  }
}
