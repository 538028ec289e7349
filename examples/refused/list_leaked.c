// list.c with one change: Pop doesn't let the list own the rest.
// Refused: function Pop: not proved, first Pop/19 Invariant line 48
#include <vcc.h>
_(dynamic_owns) struct Node {
  int data;
  struct Node *next;
  _(invariant next != NULL ==> \mine(next))
};
_(dynamic_owns) struct List {
  struct Node *head;
  _(invariant head != NULL ==> \mine(head))
};
struct List *NewList()
  _(ensures \result != NULL ==> \wrapped(\result) && \fresh(\result))
{
  struct List *l = malloc(sizeof(struct List));
  if (l != NULL) {
    l->head = NULL;
    _(ghost l->\owns = {};)
    _(wrap l)
  }
  return l;
}
int Push(struct List *l, int data)
  _(maintains \wrapped(l))
  _(writes l)
{
  struct Node *n = malloc(sizeof(struct Node));
  if (n == NULL) return 0;
  _(unwrapping l) {
    n->data = data;
    n->next = l->head;
    _(ghost n->\owns = {};)
    _(ghost if (l->head != NULL) n->\owns += l->head;)
    _(wrap n)
    l->head = n;
    _(ghost l->\owns = {n};)
  }
  return 1;
}
int Pop(struct List *l, int otherwise)
  _(maintains \wrapped(l))
  _(writes l)
{
  int data = otherwise;
  struct Node *n = l->head;
  if (n != NULL) {
    _(unwrapping l) {
      _(unwrap n)
      data = n->data;
      l->head = n->next;
      _(ghost l->\owns = {};)
      free(n);
    }
  }
  return data;
}
void main() {}
