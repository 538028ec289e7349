// stop.c with one change: the loop doesn't say that the job stays closed.
// Refused: function Worker: not proved, first Worker/6 Unwrap line 21
#include <vcc.h>
_(claimable) struct Flag {
  volatile int stop;
  _(invariant \old(stop) != 0 ==> stop != 0)
};
struct Job {
  int done;
  _(invariant done >= 0)
};
void Worker(struct Flag *f, struct Job *j _(ghost \claim c))
  _(requires \wrapped(c) && \claims_object(c, f) && \wrapped(j))
  _(writes c, j)
{
  int stop = 0;
  while (!stop)
    _(invariant \wrapped(c) && \claims_object(c, f))
  {
    _(atomic c, f) { stop = f->stop; }
    _(unwrapping j) {
      if (j->done < 1000) j->done++;
    }
  }
}
void Stop(struct Flag *f)
  _(maintains \wrapped(f))
  _(writes f)
{
  int s = 0;
  _(ghost \claim k;)
  _(atomic f) {
    f->stop = 1;
    _(ghost k = \make_claim({f}, f->stop != 0);)
  }
  _(atomic f) { s = f->stop; }
  _(assert s != 0)
}
void main()
{
  struct Flag *f = malloc(sizeof(struct Flag));
  struct Job *j = malloc(sizeof(struct Job));
  if (f != NULL && j != NULL) {
    f->stop = 0;
    _(wrap f)
    j->done = 0;
    _(wrap j)
    _(ghost \claim a = \make_claim({f}, \true);)
    vcc_spawn(Worker, f, j _(ghost a));
    Stop(f);
  }
}
