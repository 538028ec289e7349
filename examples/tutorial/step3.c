struct Interval {
  int low;
  int high;
  _(invariant low <= high)
};
void Widen(struct Interval *i)
  _(maintains \wrapped(i))
  _(writes i)
{
  _(unwrap i)
  if (i->high < 100) i->high = i->high + 1;
  _(wrap i)
}
void main()
{
  struct Interval *i = malloc(sizeof(struct Interval));
  if (i != NULL) {
    i->low = 3;
    i->high = 5;
    _(wrap i)
    Widen(i);
  }
}
