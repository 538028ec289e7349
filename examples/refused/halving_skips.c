// halving.c with one change: it takes the middle to be less than the number,
// which it may be.
// Refused: function Find: not proved, first Find/9 LoopInv line 21
#include <vcc.h>
struct Secret {
  int value;
  _(invariant 0 <= value && value < 2147483647)
};
int IsBelow(struct Secret *s, int m)
  _(requires \wrapped(s))
  _(ensures \result == (s->value < m))
{
  return s->value < m;
}
int Find(struct Secret *s)
  _(requires \wrapped(s))
  _(ensures \result == s->value)
{
  int low = 0;
  int high = 2147483647;
  while (low + 1 < high)
    _(invariant 0 <= low && low <= s->value && s->value < high)
  {
    int mid = low + (high - low) / 2;
    int below = IsBelow(s, mid);
    if (below) high = mid;
    else low = mid + 1;
  }
  return low;
}
void main() {}
