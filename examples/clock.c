// A clock whose parts stay in their ranges, and which goes by one second at a
// time, however the parts carry over.
#include <vcc.h>
struct Clock {
  int hour;
  int minute;
  int second;
  _(invariant 0 <= hour && hour < 24)
  _(invariant 0 <= minute && minute < 60)
  _(invariant 0 <= second && second < 60)
};
void Tick(struct Clock *c)
  _(maintains \wrapped(c))
  _(writes c)
  _(ensures 3600 * c->hour + 60 * c->minute + c->second
    == (\old(3600 * c->hour + 60 * c->minute + c->second) + 1) % 86400)
{
  _(unwrap c)
  c->second++;
  if (c->second == 60) {
    c->second = 0;
    c->minute++;
  }
  if (c->minute == 60) {
    c->minute = 0;
    c->hour++;
  }
  if (c->hour == 24) c->hour = 0;
  _(wrap c)
}
void main() {}
