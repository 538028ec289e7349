void main(int x)
  _(requires x == 5)
{
  _(assert x == 5)
}
