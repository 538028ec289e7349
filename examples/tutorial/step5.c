struct Flag {
  volatile int up;
  _(invariant up == 0 || up == 1)
};
void Raise(struct Flag *f)
  _(requires \wrapped(f))
{
  _(atomic f) {
    f->up = 1;
  }
}
int IsUp(struct Flag *f)
  _(requires \wrapped(f))
  _(ensures \result == 0 || \result == 1)
{
  int seen;
  _(atomic f) {
    seen = f->up;
  }
  return seen;
}
void main()
{
}
