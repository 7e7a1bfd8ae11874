#include <limits.h>

// The second sum is one above the largest int.
int f(void) {
  return 2147483600 + 40
    + 8 - 1;
}
