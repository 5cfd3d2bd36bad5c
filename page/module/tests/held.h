// What the tests of the C share: `held` counts what must hold, and says where it doesn't. Random numbers that are always the same.
#include <stdio.h>

static int failed;
static long looked_at;

#define held(yes) \
    do { \
        looked_at++; \
        if (!(yes) && failed++ < 10) printf("%s:%d: %s\n", __FILE__, __LINE__, #yes); \
    } while (0)

static unsigned long chance = 88172645463325252ul;

__attribute__((unused)) static unsigned long random_word(void) {
    chance ^= chance << 13;
    chance ^= chance >> 7;
    chance ^= chance << 17;
    return chance * 2685821657736338717ul;
}

static int ended(const char *name) {
    printf("%s: %ld held, %d failed\n", name, looked_at - failed, failed);
    return failed != 0;
}
