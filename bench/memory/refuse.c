// Refuses memory to the program that it is loaded into (LD_PRELOAD): its allocation number REFUSE, from 1, gets none,
// and where REFUSE_ON is set neither do those behind it. Each refusal is a byte on the descriptor 3.
#include <errno.h>
#include <stdlib.h>
#include <unistd.h>

extern void *__libc_malloc(size_t size);
extern void *__libc_realloc(void *old, size_t size);

static long number, first, goes_on;

__attribute__((constructor)) static void read_words(void) {
    const char *word = getenv("REFUSE");
    first = word ? atol(word) : 0;
    goes_on = getenv("REFUSE_ON") != NULL;
    number = 0;
}

static int is_refused(void) {
    number++;
    if (first == 0 || number < first || (number > first && !goes_on)) return 0;
    if (write(3, "r", 1) != 1) _exit(99);
    errno = ENOMEM;
    return 1;
}

void *malloc(size_t size) { return is_refused() ? NULL : __libc_malloc(size); }

void *realloc(void *old, size_t size) { return is_refused() ? NULL : __libc_realloc(old, size); }
