// Whole numbers of 128 bits: the functions that a compiler calls where a processor has no such instruction. None calls itself.
#include "memory.h"

typedef unsigned __int128 wide;
typedef union {
    wide all;
    struct {
        size low, high;
    } half;
} Parts;

enum { HALF = 64 };

wide __multi3(wide first, wide second) {
    Parts a = {first}, b = {second}, product;
    size a0 = (unsigned)a.half.low, a1 = a.half.low >> 32, b0 = (unsigned)b.half.low, b1 = b.half.low >> 32;
    size low = a0 * b0, left = a0 * b1, right = a1 * b0;
    size middle = (low >> 32) + (unsigned)left + (unsigned)right;
    product.half.low = (middle << 32) | (unsigned)low;
    product.half.high = a1 * b1 + (left >> 32) + (right >> 32) + (middle >> 32);
    product.half.high += a.half.high * b.half.low + a.half.low * b.half.high;
    return product.all;
}

wide __ashlti3(wide number, int by) {
    Parts it = {number};
    by &= 127;
    if (by >= HALF) {
        it.half.high = it.half.low << (by - HALF);
        it.half.low = 0;
    } else if (by) {
        it.half.high = it.half.high << by | it.half.low >> (HALF - by);
        it.half.low <<= by;
    }
    return it.all;
}

wide __lshrti3(wide number, int by) {
    Parts it = {number};
    by &= 127;
    if (by >= HALF) {
        it.half.low = it.half.high >> (by - HALF);
        it.half.high = 0;
    } else if (by) {
        it.half.low = it.half.low >> by | it.half.high << (HALF - by);
        it.half.high >>= by;
    }
    return it.all;
}

wide __ashrti3(wide number, int by) {
    Parts it = {number};
    count high = it.half.high;
    by &= 127;
    if (by >= HALF) {
        it.half.low = high >> (by - HALF);
        it.half.high = high >> (HALF - 1);
    } else if (by) {
        it.half.low = it.half.low >> by | it.half.high << (HALF - by);
        it.half.high = high >> by;
    }
    return it.all;
}

// Bit by bit from the top, but for numbers of 64 bits. The program divides by 0 nowhere.
wide __udivti3(wide number, wide by) {
    Parts a = {number}, b = {by}, rest = {0}, quotient = {0};
    if (!a.half.high && !b.half.high) return a.half.low / b.half.low;
    for (int i = 127; i >= 0; i--) {
        size carried = rest.half.high >> 63;
        size bit = i >= HALF ? a.half.high >> (i - HALF) & 1 : a.half.low >> i & 1;
        rest.half.high = rest.half.high << 1 | rest.half.low >> 63;
        rest.half.low = rest.half.low << 1 | bit;
        if (carried || rest.half.high > b.half.high ||
            (rest.half.high == b.half.high && rest.half.low >= b.half.low)) {
            size borrowed = rest.half.low < b.half.low;
            rest.half.low -= b.half.low;
            rest.half.high -= b.half.high + borrowed;
            if (i >= HALF) quotient.half.high |= 1ul << (i - HALF);
            else quotient.half.low |= 1ul << i;
        }
    }
    return quotient.all;
}
