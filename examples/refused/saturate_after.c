// saturate.c with one change: it looks at the sum once it has been made.
// Refused: function Add: not proved, first Add/1 Range line 9
int Add(int a, int b)
  _(ensures a + b > 2147483647 ==> \result == 2147483647)
  _(ensures a + b < -2147483648 ==> \result == -2147483648)
  _(ensures -2147483648 <= a + b && a + b <= 2147483647 ==> \result == a + b)
{
  int sum = 0;
  if (b >= 0 && a + b < a) sum = 2147483647;
  else if (b < 0 && a < -2147483647 - 1 - b) sum = -2147483647 - 1;
  else sum = a + b;
  return sum;
}
void main()
{
  int most = Add(2147483647, 1);
  _(assert most == 2147483647)
}
