int minimum(int a, int b)
  _(ensures \result <= a && \result <= b)
  _(ensures \result == a || \result == b)
{
  int m = b;
  if (a < b) m = a;
  return m;
}
void main()
{
  int x = minimum(3, 5);
  _(assert x == 3)
}
