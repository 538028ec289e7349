// halving.c with one change: it takes the middle from the sum of the ends,
// which may be past the greatest number.
// Refused: function Find: not proved, first Find/3 Range line 24
#include <vcc.h>
struct Secret {
  int value;
  _(invariant 0 <= value && value < 2147483647)
};
int IsBelow(struct Secret *s, int m)
  _(requires \wrapped(s))
  _(ensures \result == (s->value < m))
{
  return s->value < m;
}
int Find(struct Secret *s)
  _(requires \wrapped(s))
  _(ensures \result == s->value)
{
  int low = 0;
  int high = 2147483647;
  while (low + 1 < high)
    _(invariant 0 <= low && low <= s->value && s->value < high)
  {
    int mid = (low + high) / 2;
    int below = IsBelow(s, mid);
    if (below) high = mid;
    else low = mid;
  }
  return low;
}
void main() {}
