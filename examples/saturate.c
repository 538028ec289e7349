// Sums that stop at the ends of the range. The numbers of annotations have no
// bound, so the contract speaks of the exact sum, which an int may not hold.
int Add(int a, int b)
  _(ensures a + b > 2147483647 ==> \result == 2147483647)
  _(ensures a + b < -2147483648 ==> \result == -2147483648)
  _(ensures -2147483648 <= a + b && a + b <= 2147483647 ==> \result == a + b)
{
  int sum = 0;
  if (b >= 0 && a > 2147483647 - b) sum = 2147483647;
  else if (b < 0 && a < -2147483647 - 1 - b) sum = -2147483647 - 1;
  else sum = a + b;
  return sum;
}
void main()
{
  int most = Add(2147483647, 1);
  _(assert most == 2147483647)
}
