int twice(int n)
  _(requires 0 <= n && n <= 1000)
  _(ensures \result == 2 * n)
{
  int i = 0;
  int s = 0;
  while (i < n)
    _(invariant 0 <= i && i <= n)
    _(invariant s == 2 * i)
  {
    s = s + 2;
    i = i + 1;
  }
  return s;
}
void main()
{
  int x = twice(21);
  _(assert x == 42)
}
