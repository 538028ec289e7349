// weeks.c with one change: the loop doesn't say how weeks and rest belong to
// the days.
// Refused: function Weeks: not proved, first Weeks/3 Range line 14
int Weeks(int days)
  _(requires 0 <= days)
  _(ensures \result == days / 7)
{
  int weeks = 0;
  int rest = days;
  while (rest >= 7)
    _(invariant 0 <= weeks && 0 <= rest)
  {
    rest = rest - 7;
    weeks++;
  }
  _(assert weeks == days / 7)
  _(assert rest == days % 7)
  return weeks;
}
void main()
{
  int year = Weeks(365);
  _(assert year == 52)
}
