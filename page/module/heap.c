// The heap: blocks of some 180 sizes, four to each doubling. A block that is freed waits in the list of its size for the next one
// that asks for it. The last block grows in place, as long as there is memory.
#include "memory.h"

#define EXPORT(name) __attribute__((export_name(#name)))

// The head before each block. A block and its head begin at multiples of 16.
typedef struct Head {
    size kind;
    struct Head *next; // while it is free
} Head;

enum { KINDS = 128, LEAST = 32 };

static Head *freed[KINDS];
static byte *top;       // where no block was made yet
static size nowhere[2]; // the place of a block that doesn't exist

// The bytes of a block of this kind, with its head: 32, 48, 48, 64, 64, 80, 96, 112, 128, 160 ..
static size size_of(size kind) { return (((4 + kind % 4) << (kind / 4 + 3)) + 15) & ~(size)15; }

// The first kind that has room for n bytes after its head, where n is below 2^32.
static size kind_for(size n) {
    size whole = n + sizeof(Head) < LEAST ? LEAST : n + sizeof(Head);
    size bits = 63 - __builtin_clzl(whole); // 2^bits is the greatest power in it
    size kind = (bits - 5) * 4 + ((whole >> (bits - 2)) & 3);
    return size_of(kind) < whole ? kind + 1 : kind;
}

// Whether the memory reaches to this place, now or after it grew: by a quarter where it can, so that it grows seldom.
static int reaches(byte *end) {
    byte *have = memory_end();
    if (end <= have) return 1;
    size wanted = end - have, quarter = (have - memory_begin()) / 4;
    return (quarter > wanted && memory_grow(quarter)) || memory_grow(wanted);
}

static Head *taken(Head **list) {
    Head *head = *list;
    *list = head->next;
    return head;
}

// A block for n bytes, or none. Where the memory ends, a larger one that was freed serves too.
static void *new_block(size n) {
    if (n >> 32) return 0;
    size kind = kind_for(n);
    if (freed[kind]) return taken(&freed[kind]) + 1;
    if (!top) top = (byte *)(((size)memory_begin() + 15) & ~(size)15);
    if (reaches(top + size_of(kind))) {
        Head *head = (Head *)top;
        top += size_of(kind);
        head->kind = kind;
        return head + 1;
    }
    while (++kind < KINDS)
        if (freed[kind]) return taken(&freed[kind]) + 1;
    return 0;
}

static Tried tried(void *block) {
    Tried answer = {block != 0, block ? block : nowhere};
    return answer;
}

// No bytes are asked for as many as the alignment, which is at most 16: so a block is never of none.
Tried rattle_alloc(size n, size alignment) { return tried(new_block(n ? n : alignment)); }

void rattle_dealloc(void *block) {
    if (!block) return;
    Head *head = (Head *)block - 1;
    head->next = freed[head->kind];
    freed[head->kind] = head;
}

Tried rattle_realloc(void *block, size kept, size n, size alignment) {
    if (!n) n = alignment;
    if (!block) return tried(new_block(n));
    if (n >> 32) return tried(0);
    Head *head = (Head *)block - 1;
    size kind = kind_for(n), room = size_of(head->kind);
    if (kind <= head->kind) return tried(block);
    if ((byte *)head + room == top && reaches((byte *)head + size_of(kind))) {
        top = (byte *)head + size_of(kind);
        head->kind = kind;
        return tried(block);
    }
    byte *other = new_block(n);
    if (other) {
        copy_bytes(other, block, kept < n ? kept : n);
        rattle_dealloc(block);
    }
    return tried(other);
}

// A place for n bytes of whoever calls the program, or 0 where there is none.
EXPORT(room) void *room(size n) {
    Tried tried = rattle_alloc(n, 16);
    return tried.found ? tried.block : 0;
}
