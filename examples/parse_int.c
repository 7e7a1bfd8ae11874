// Reads a number of up to three digits from an array of bytes; a sign in front takes the place of one digit.
#include <assert.h>
#include <stddef.h>

struct text {
  int byte[3];
};

// The number that begins at byte i, up to the first byte that is no digit.
int digits(struct text *s, int i) {
  int value = 0;
  for (; i < 3; i++) {
    int digit = s->byte[i] - 48;
    if (digit < 0 || digit > 9) return value;
    value = 10 * value + digit;
  }
  return value;
}

int testme(struct text *s) {
  int value;
  if (s == NULL) return 0;
  if (s->byte[0] == 45)
    value = -digits(s, 1);
  else
    value = digits(s, 0);
  assert(-99 <= value && value <= 999);
  return value;
}
