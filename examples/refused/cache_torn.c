// cache.c with one change: Refill leaves the old value.
// Refused: function Refill: not proved, first Refill/19 Invariant line 58
#include <vcc.h>
_(claimable) struct Item {
  int key;
  int value;
  _(invariant value == 3 * key)
};
_(claimable, volatile_owns) struct Entry {
  volatile int pins;
  struct Item *item;
  _(invariant pins >= 0 ==> \mine(item) && item->\claim_count == pins)
};
int Find(struct Entry *e, int key, int otherwise _(ghost \claim c))
  _(maintains \wrapped(c) && \claims_object(c, e))
  _(ensures \result == otherwise || \result == 3 * key)
{
  struct Item *i = e->item;
  int answer = otherwise;
  int n = 0;
  int done = 0;
  _(ghost \claim k;)
  _(atomic c, e) { n = e->pins; }
  if (n >= 0 && n < 2147483647) {
    _(atomic c, e) {
      done = InterlockedCompareExchange(&e->pins, n + 1, n) == n;
      _(ghost if (done) k = \make_claim({i}, \true);)
    }
  }
  if (done) {
    if (i->key == key) answer = i->value;
    do
      _(invariant \wrapped(k) && \claims_only(k, i))
    {
      done = 0;
      _(atomic c, e) { n = e->pins; }
      if (n > 0) {
        _(atomic c, e) {
          done = InterlockedCompareExchange(&e->pins, n - 1, n) == n;
          _(ghost if (done) \destroy_claim(k, {i});)
        }
      }
    } while (!done);
  }
  return answer;
}
int Refill(struct Entry *e, int key _(ghost \claim c))
  _(requires 0 <= key && key <= 1000)
  _(maintains \wrapped(c) && \claims_object(c, e))
{
  struct Item *i = e->item;
  int won = 0;
  _(atomic c, e) {
    won = InterlockedCompareExchange(&e->pins, -1, 0) == 0;
    _(ghost if (won) e->\owns -= i;)
  }
  if (won) {
    _(unwrapping i) {
      i->key = key;
    }
    _(atomic c, e) {
      e->pins = 0;
      _(ghost e->\owns += i;)
    }
  }
  return won;
}
void main() {}
