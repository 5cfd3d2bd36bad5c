// The heap over a piece of memory that ends: sizes, places, contents, reuse, growth and refusal.
#include <stdlib.h>
#include <string.h>

#include "held.h"

#include "../heap.c"

enum { WHOLE = 1 << 24, PAGE = 65536 };

static byte *memory, *end_of_it;
static size most;

byte *memory_begin(void) { return memory + 8; }

byte *memory_end(void) { return end_of_it; }

int memory_grow(size bytes) {
    size pages = (bytes + PAGE - 1) / PAGE;
    if ((size)(end_of_it - memory) + pages * PAGE > most) return 0;
    end_of_it += pages * PAGE;
    return 1;
}

void copy_bytes(byte *to, const byte *from, size n) { memmove(to, from, n); }

// A heap of which nothing was taken, in memory that can become so long.
static void begin(size length) {
    most = length;
    end_of_it = memory + PAGE;
    top = 0;
    memset(freed, 0, sizeof freed);
}

static void sizes(void) {
    size before = 0;
    for (size n = 0; n < 300000; n++) {
        size room = size_of(kind_for(n));
        held(room >= n + 16 && room % 16 == 0 && room >= before);
        held(n < 48 || room <= (n + 16) + (n + 16) / 4 + 16);
        before = room;
    }
    for (int k = 0; k < 100000; k++) {
        size n = random_word() >> 32 >> (random_word() % 24), kind = kind_for(n);
        held(kind < KINDS && size_of(kind) >= n + 16 && size_of(kind) <= n + 16 + (n + 16) / 4 + 16);
    }
    held(kind_for(0xffffffff) < KINDS);
}

// Blocks that are taken, made longer or shorter, and freed by chance: each has what was laid into it, and its place is even.
static void contents(void) {
    enum { BLOCKS = 500 };
    static byte *block[BLOCKS];
    static size length[BLOCKS];
    begin(WHOLE);
    memset(block, 0, sizeof block);
    for (long step = 0; step < 300000; step++) {
        int k = random_word() % BLOCKS;
        size n = random_word() % (step % 100 ? 300 : 30000);
        if (block[k]) {
            for (size i = 0; i < length[k]; i++)
                if (block[k][i] != (byte)(k + i)) {
                    held(!"a byte of a block has changed");
                    return;
                }
        }
        if (!block[k]) {
            Tried tried = rattle_alloc(n, 8);
            held(tried.found == 1 && (size)tried.block % 16 == 0);
            block[k] = tried.block;
        } else if (random_word() % 2) {
            Tried tried = rattle_realloc(block[k], length[k] < n ? length[k] : n, n, 8);
            held(tried.found == 1 && (size)tried.block % 16 == 0);
            block[k] = tried.block;
            for (size i = 0; i < length[k] && i < n; i++) held(block[k][i] == (byte)(k + i));
        } else {
            rattle_dealloc(block[k]);
            block[k] = 0;
            continue;
        }
        held(block[k] >= memory_begin() && block[k] + n <= memory_end());
        length[k] = n;
        for (size i = 0; i < n; i++) block[k][i] = k + i;
    }
}

static void reuse(void) {
    begin(WHOLE);
    void *first = rattle_alloc(100, 8).block, *second = rattle_alloc(100, 8).block;
    held(first != second);
    rattle_dealloc(first);
    held(rattle_alloc(97, 8).block == first);
    rattle_dealloc(0);
    held(rattle_alloc(0, 16).found && rattle_realloc(second, 0, 0, 8).block == second);
    held(rattle_realloc(0, 0, 10, 1).found);
    // The last block grows in place, another one moves, and what is asked for less stays.
    byte *last = rattle_alloc(1000, 8).block;
    memset(last, 7, 1000);
    held(rattle_realloc(last, 1000, 9000, 8).block == last && last[999] == 7);
    byte *after = rattle_alloc(1, 1).block;
    held(after >= last + 9000);
    byte *moved = rattle_realloc(last, 1000, 90000, 8).block;
    held(moved != last && moved[0] == 7 && moved[999] == 7);
    held(rattle_realloc(moved, 1000, 5, 8).block == moved);
}

static void refusal(void) {
    begin(1 << 20);
    held(!rattle_alloc(1ul << 32, 1).found && !rattle_alloc(-1ul, 1).found && !rattle_alloc(1 << 20, 1).found);
    held(rattle_alloc(-1ul, 1).block != 0);
    byte *kept = rattle_alloc(1000, 8).block;
    memset(kept, 9, 1000);
    static void *blocks[1000];
    int count = 0;
    for (;;) {
        Tried tried = rattle_alloc(5000, 8);
        if (!tried.found) break;
        held((byte *)tried.block + 5000 <= end_of_it && end_of_it <= memory + (1 << 20));
        blocks[count++] = tried.block;
    }
    held(count > 150); // of 1 MiB: 5,000 bytes and no more than a quarter beside them
    Tried tried = rattle_realloc(kept, 1000, 6000, 8);
    held(!tried.found && kept[0] == 9 && kept[999] == 9);
    held(!rattle_realloc(kept, 1000, 1ul << 40, 8).found);
    while (rattle_alloc(1, 8).found) continue;
    // What was freed serves for less, and for no more.
    rattle_dealloc(blocks[3]);
    held(!rattle_alloc(9000, 8).found);
    held(rattle_alloc(2000, 8).block == blocks[3]);
    held(!rattle_alloc(5000, 8).found);
    // A caller's place comes from the same blocks.
    held(!room(5000));
    rattle_dealloc(blocks[5]);
    held(room(5000) == blocks[5]);
}

int main(void) {
    memory = aligned_alloc(PAGE, WHOLE);
    sizes();
    contents();
    reuse();
    refusal();
    return ended("heap");
}
