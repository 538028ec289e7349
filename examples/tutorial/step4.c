struct Cell {
  int value;
};
struct Pair {
  struct Cell *low;
  struct Cell *high;
  _(invariant \mine(low, high))
  _(invariant low->value <= high->value)
};
void Raise(struct Pair *p)
  _(maintains \wrapped(p))
  _(writes p)
{
  _(unwrapping p) {
    _(unwrapping p->high) {
      if (p->high->value < 100) p->high->value = p->high->value + 1;
    }
  }
}
void Join(struct Pair *p, struct Cell *a, struct Cell *b)
  _(requires \wrapped(a) && \wrapped(b) && a->value <= b->value)
  _(ensures \wrapped(p))
  _(writes \span(p), a, b)
{
  p->low = a;
  p->high = b;
  _(wrap p)
}
void main()
{
}
