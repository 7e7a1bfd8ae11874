// A protocol: message 1 greets, 2 logs in behind a greeting, each other one ends. Who is logged in is in state 2: a second
// greeting breaks that, and the assert finds it.
#include <assert.h>

struct session {
  int state;
  int user;
};

void receive(struct session *s, int message) {
  if (message == 1) {
    s->state = 1;
  } else if (message == 2) {
    if (s->state == 1) {
      s->state = 2;
      s->user = 1;
    }
  } else {
    s->state = 0;
    s->user = 0;
  }
  if (s->user) assert(s->state == 2);
}

int testme(void) {
  struct session s;
  for (int i = 0; i < 3; i++) {
    int message;
    CREST_int(message);
    receive(&s, message);
  }
  return s.state;
}
