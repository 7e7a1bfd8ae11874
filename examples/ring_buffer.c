// A ring buffer of two slots. Each number of the input says whether to put the next number in, or to take one out. What
// comes out is what was put in, in order.
#include <assert.h>

struct ring {
  int slot[2];
  int head;
  int count;
};

int put(struct ring *r, int v) {
  int at;
  if (r->count == 2) return 0;
  at = r->head + r->count;
  if (at >= 2) at -= 2;
  r->slot[at] = v;
  r->count++;
  return 1;
}

int take(struct ring *r) {
  int v = r->slot[r->head];
  r->head++;
  if (r->head == 2) r->head = 0;
  r->count--;
  return v;
}

int testme(void) {
  struct ring r;
  int next = 0, due = 0;
  for (int i = 0; i < 4; i++) {
    int order;
    CREST_int(order);
    if (order > 0) {
      if (put(&r, next)) next++;
    } else if (r.count > 0) {
      assert(take(&r) == due);
      due++;
    }
  }
  return next - due;
}
