// account.c with one change: Withdraw doesn't look whether there is enough.
// Refused: function Withdraw: not proved, first Withdraw/18 Invariant line 52
#include <vcc.h>
struct Account {
  int balance;
  _(invariant balance >= 0)
};
_(claimable, volatile_owns) struct Lock {
  volatile int locked;
  _(ghost \object protected_obj;)
  _(invariant locked == 0 ==> \mine(protected_obj))
};
struct Handle {
  struct Lock *lock;
  struct Account *account;
  _(ghost \claim c;)
  _(invariant \mine(c))
  _(invariant \claims_object(c, lock) && lock->protected_obj == account)
};
void Acquire(struct Lock *l _(ghost \claim c))
  _(maintains \wrapped(c) && \claims_object(c, l))
  _(ensures \wrapped(l->protected_obj) && \fresh(l->protected_obj))
{
  int stop = 0;
  do {
    _(atomic c, l) {
      stop = InterlockedCompareExchange(&l->locked, 1, 0) == 0;
      _(ghost if (stop) l->\owns -= l->protected_obj;)
    }
  } while (!stop);
}
void Release(struct Lock *l _(ghost \claim c))
  _(maintains \wrapped(c) && \claims_object(c, l))
  _(requires \wrapped(l->protected_obj) && l->protected_obj != c)
  _(writes l->protected_obj)
{
  _(atomic c, l) {
    l->locked = 0;
    _(ghost l->\owns += l->protected_obj;)
  }
}
int Withdraw(struct Handle *h, int amount)
  _(requires amount >= 0)
  _(maintains \wrapped(h))
  _(writes h)
{
  struct Lock *l = h->lock;
  struct Account *a = h->account;
  int paid = 0;
  _(unwrapping h) {
    Acquire(l _(ghost h->c));
    _(unwrapping a) {
      a->balance -= amount;
      paid = 1;
    }
    Release(l _(ghost h->c));
  }
  return paid;
}
void main() {}
