// Each function of 128 bits against the compiler's own: on numbers near the ends of their halves, and on random ones.
#include "held.h"

#define __multi3 our_product
#define __ashlti3 our_left
#define __lshrti3 our_right
#define __ashrti3 our_signed_right
#define __udivti3 our_quotient
#include "../wide.c"

static wide random_wide(void) { return ((wide)random_word() << 64 | random_word()) >> (random_word() % 128); }

static void pair(wide a, wide b) {
    held(our_product(a, b) == a * b);
    if (b) held(our_quotient(a, b) == a / b);
}

static void shifts(wide a) {
    for (int by = 0; by < 128; by++) {
        held(our_left(a, by) == a << by);
        held(our_right(a, by) == a >> by);
        held(our_signed_right(a, by) == (wide)((__int128)a >> by));
    }
}

int main(void) {
    wide extreme[400];
    int count = 0;
    for (int bit = 0; bit < 128; bit++)
        for (int by = -1; by <= 1; by++) extreme[count++] = ((wide)1 << bit) + by;
    extreme[count++] = -(wide)1;
    extreme[count++] = (wide)0xffffffffffffffff << 64;
    for (int i = 0; i < count; i++) {
        shifts(extreme[i]);
        for (int j = 0; j < count; j++) pair(extreme[i], extreme[j]);
    }
    for (int k = 0; k < 1000000; k++) pair(random_wide(), random_wide());
    for (int k = 0; k < 10000; k++) shifts(random_wide());
    return ended("wide");
}
