_(claimable, volatile_owns) struct Lock {
  volatile int locked;
  _(ghost \object protected_obj;)
  _(invariant locked == 0 ==> \mine(protected_obj))
};
void InitializeLock(struct Lock *l _(ghost \object obj))
  _(writes \span(l), obj)
  _(requires \wrapped(obj))
  _(ensures \wrapped(l) && l->protected_obj == obj)
{
  l->locked = 0;
  _(ghost l->protected_obj = obj;)
  _(ghost l->\owns = {obj};)
  _(wrap l)
}
void Acquire(struct Lock *l _(ghost \claim c))
  _(maintains \wrapped(c) && \claims_object(c, l))
  _(ensures \wrapped(l->protected_obj) && \fresh(l->protected_obj))
{
  int stop = 0;
  do {
    _(atomic c, l) {
      stop = InterlockedCompareExchange(&l->locked, 1, 0) == 0;
      _(ghost if (stop) l->\owns -= l->protected_obj;)
    }
  } while (!stop);
}
void Release(struct Lock *l _(ghost \claim c))
  _(maintains \wrapped(c) && \claims_object(c, l))
  _(requires \wrapped(l->protected_obj) && l->protected_obj != c)
  _(writes l->protected_obj)
{
  _(atomic c, l) {
    l->locked = 0;
    _(ghost l->\owns += l->protected_obj;)
  }
}
void main()
{
}
