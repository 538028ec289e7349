// clock.c with one change: the hour is lost, which no invariant sees.
// Refused: function Tick: not proved, first Tick/26 Ensures line 29
#include <vcc.h>
struct Clock {
  int hour;
  int minute;
  int second;
  _(invariant 0 <= hour && hour < 24)
  _(invariant 0 <= minute && minute < 60)
  _(invariant 0 <= second && second < 60)
};
void Tick(struct Clock *c)
  _(maintains \wrapped(c))
  _(writes c)
  _(ensures 3600 * c->hour + 60 * c->minute + c->second
    == (\old(3600 * c->hour + 60 * c->minute + c->second) + 1) % 86400)
{
  _(unwrap c)
  c->second++;
  if (c->second == 60) {
    c->second = 0;
    c->minute++;
  }
  if (c->minute == 60) {
    c->minute = 0;
  }
  if (c->hour == 24) c->hour = 0;
  _(wrap c)
}
void main() {}
