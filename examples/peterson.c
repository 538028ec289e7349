// Peterson's lock for two threads, by reads and writes alone. A side's slot in the
// lock has its flag and a ghost program counter: 0 outside, 1 flag up, 2 waiting,
// 3 inside. Its thread owns a side with the same counter: the slot's changes only
// to the side's, and the side's only by its owner.
#include <vcc.h>
struct Data {
  int v;
};
_(claimable) struct Slot {
  volatile int up;
  struct Slot *other;
  _(ghost volatile int pc;)
  _(ghost struct Side *side;)
  _(invariant \approves(\this->\owner, up))
  _(invariant \approves(\this->\owner, pc))
  _(invariant \unchanged(pc) || pc == side->pc)
};
struct Side {
  struct Slot *slot;
  _(ghost volatile int pc;)
  _(ghost \claim k;)
  _(invariant \approves(\this->\owner, pc))
  _(invariant \mine(k) && \claims_object(k, slot))
  _(invariant slot->side == \this && slot->pc == pc)
};
_(claimable, volatile_owns) struct Lock {
  volatile struct Slot *turn;
  struct Slot *a;
  struct Slot *b;
  struct Data *data;
  _(invariant \mine(a, b) && a != b && a->other == b && b->other == a)
  _(invariant (a->pc != 0 ==> a->up != 0) && (b->pc != 0 ==> b->up != 0))
  _(invariant a->pc != 3 || b->pc != 3)
  _(invariant a->pc == 3 && b->pc == 2 ==> turn == a)
  _(invariant b->pc == 3 && a->pc == 2 ==> turn == b)
  _(invariant a->pc != 3 && b->pc != 3 ==> \mine(data))
};
void InitSlot(struct Slot *x, struct Slot *other, struct Side *s)
  _(writes \span(x))
  _(ensures \wrapped(x) && x->other == other && x->side == s && x->pc == 0)
{
  x->up = 0;
  x->other = other;
  _(ghost { x->side = s; x->pc = 0; })
  _(wrap x)
}
void InitSide(struct Side *s, struct Slot *x _(ghost \claim k))
  _(requires \wrapped(x) && x->side == s && x->pc == 0)
  _(requires \wrapped(k) && \claims_object(k, x))
  _(writes \span(s), k)
  _(ensures \wrapped(s) && s->slot == x && s->pc == 0)
{
  s->slot = x;
  _(ghost { s->pc = 0; s->k = k; })
  _(wrap s)
}
void Init(struct Lock *l, struct Slot *a, struct Slot *b, struct Data *d)
  _(requires \wrapped(a) && \wrapped(b) && \wrapped(d))
  _(requires a != b && a->other == b && b->other == a)
  _(requires a->pc == 0 && b->pc == 0)
  _(writes \span(l), a, b, d)
  _(ensures \wrapped(l) && l->a == a && l->b == b && l->data == d)
{
  l->turn = a;
  l->a = a;
  l->b = b;
  l->data = d;
  _(ghost l->\owns = {a, b, d};)
  _(wrap l)
}
void Announce(struct Lock *l, struct Side *s _(ghost \claim c))
  _(maintains \wrapped(c) && \claims_object(c, l))
  _(maintains \wrapped(s) && (s->slot == l->a || s->slot == l->b))
  _(requires s->pc == 0)
  _(writes s)
  _(ensures s->pc == 2)
{
  struct Slot *me = s->slot;
  struct Slot *other = me->other;
  _(atomic c, l, s, me) {
    me->up = 1;
    _(ghost { me->pc = 1; s->pc = 1; })
  }
  _(atomic c, l, s, me) {
    l->turn = other;
    _(ghost { me->pc = 2; s->pc = 2; })
  }
}
int IsAlone(struct Lock *l, struct Side *s _(ghost \claim c))
  _(maintains \wrapped(c) && \claims_object(c, l))
  _(maintains \wrapped(s) && (s->slot == l->a || s->slot == l->b))
  _(requires s->pc == 2)
  _(writes s)
  _(ensures \result == 0 ==> s->pc == 2)
  _(ensures \result != 0 ==> s->pc == 3 && \wrapped(l->data) && \fresh(l->data))
{
  struct Slot *me = s->slot;
  struct Slot *other = me->other;
  int up = 0;
  _(atomic c, l, s, me, other) {
    up = other->up;
    _(ghost if (up == 0) { me->pc = 3; s->pc = 3; l->\owns -= l->data; })
  }
  return up == 0;
}
int HasTurn(struct Lock *l, struct Side *s _(ghost \claim c))
  _(maintains \wrapped(c) && \claims_object(c, l))
  _(maintains \wrapped(s) && (s->slot == l->a || s->slot == l->b))
  _(requires s->pc == 2)
  _(writes s)
  _(ensures \result == 0 ==> s->pc == 2)
  _(ensures \result != 0 ==> s->pc == 3 && \wrapped(l->data) && \fresh(l->data))
{
  struct Slot *me = s->slot;
  struct Slot *turn = NULL;
  _(atomic c, l, s, me) {
    turn = l->turn;
    _(ghost if (turn == me) { me->pc = 3; s->pc = 3; l->\owns -= l->data; })
  }
  return turn == me;
}
void Enter(struct Lock *l, struct Side *s _(ghost \claim c))
  _(maintains \wrapped(c) && \claims_object(c, l))
  _(maintains \wrapped(s) && (s->slot == l->a || s->slot == l->b))
  _(requires s->pc == 0)
  _(writes s)
  _(ensures s->pc == 3 && \wrapped(l->data) && \fresh(l->data))
{
  int in = 0;
  Announce(l, s _(ghost c));
  do
    _(invariant \wrapped(s) && s->pc == 2 && (s->slot == l->a || s->slot == l->b))
  {
    in = IsAlone(l, s _(ghost c));
    if (in == 0) in = HasTurn(l, s _(ghost c));
  } while (in == 0);
}
void Leave(struct Lock *l, struct Side *s _(ghost \claim c))
  _(maintains \wrapped(c) && \claims_object(c, l))
  _(maintains \wrapped(s) && (s->slot == l->a || s->slot == l->b))
  _(requires s->pc == 3 && \wrapped(l->data))
  _(writes s, l->data)
  _(ensures s->pc == 0)
{
  struct Slot *me = s->slot;
  _(atomic c, l, s, me) {
    me->up = 0;
    _(ghost { me->pc = 0; s->pc = 0; l->\owns += l->data; })
  }
}
void main() {}
