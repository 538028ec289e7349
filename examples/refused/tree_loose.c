// tree.c with one change: Second takes any node, which need not stay as it is.
// Refused: function Second: not proved, first Second/1 Read line 33
#include <vcc.h>
_(dynamic_owns) struct Node {
  int key;
  struct Node *left;
  struct Node *right;
  _(invariant left != NULL ==> \mine(left) && left->key <= key)
  _(invariant right != NULL ==> \mine(right) && right->key <= key)
};
struct Node *Join(struct Node *a, struct Node *b, int key)
  _(requires a != NULL ==> \wrapped(a) && a->key <= key)
  _(requires b != NULL ==> \wrapped(b) && b->key <= key)
  _(writes a, b)
  _(ensures \result != NULL ==> \wrapped(\result) && \fresh(\result) && \result->key == key)
{
  struct Node *n = malloc(sizeof(struct Node));
  if (n != NULL) {
    n->key = key;
    n->left = a;
    n->right = b;
    _(ghost n->\owns = {};)
    _(ghost if (a != NULL) n->\owns += a;)
    _(ghost if (b != NULL) n->\owns += b;)
    _(wrap n)
  }
  return n;
}
int Second(struct Node *n, int otherwise)
  _(requires otherwise <= n->key)
  _(ensures otherwise <= \result && \result <= n->key)
{
  struct Node *a = n->left;
  struct Node *b = n->right;
  int best = otherwise;
  if (a != NULL && best < a->key) best = a->key;
  if (b != NULL && best < b->key) best = b->key;
  return best;
}
void main()
{
  struct Node *low = Join(NULL, NULL, 3);
  if (low != NULL) {
    struct Node *top = Join(low, NULL, 5);
  }
}
