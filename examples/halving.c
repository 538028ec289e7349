// A search by halving: each question cuts what is left in two. The middle is
// taken in such a way that the sum of the ends isn't needed.
#include <vcc.h>
struct Secret {
  int value;
  _(invariant 0 <= value && value < 2147483647)
};
int IsBelow(struct Secret *s, int m)
  _(requires \wrapped(s))
  _(ensures \result == (s->value < m))
{
  return s->value < m;
}
int Find(struct Secret *s)
  _(requires \wrapped(s))
  _(ensures \result == s->value)
{
  int low = 0;
  int high = 2147483647;
  while (low + 1 < high)
    _(invariant 0 <= low && low <= s->value && s->value < high)
  {
    int mid = low + (high - low) / 2;
    int below = IsBelow(s, mid);
    if (below) high = mid;
    else low = mid;
  }
  return low;
}
void main() {}
