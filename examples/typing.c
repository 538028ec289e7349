#include <vcc.h>
struct Counter {
  int value;
  _(invariant value >= 0)
};
void Increment(struct Counter *c)
  _(requires \wrapped(c))
  _(writes c)
{
  _(unwrap c)
  c->count = c->count + 1;
  _(wrap c)
}
void main()
{
}
