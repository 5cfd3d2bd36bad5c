// Names that the C beside the program shares: its integers, and the memory that the heap grows in.
#ifndef MEMORY_H
#define MEMORY_H

typedef unsigned char byte;
typedef unsigned long size;
typedef long count; // a number of bytes, or -1

_Static_assert(sizeof(size) == 8 && sizeof(void *) == 8, "numbers and addresses of 64 bits");

// The beginning of the heap, and the end of the memory. memory.c has both for WebAssembly.
byte *memory_begin(void);
byte *memory_end(void);

// Makes the memory at least so many bytes longer, and says whether it could.
int memory_grow(size bytes);

// Copies n bytes, also where the two places overlap.
void copy_bytes(byte *to, const byte *from, size n);

// What the program's library asks of the heap: whether there is such a block, and where.
typedef struct {
    size found;
    void *block;
} Tried;

Tried rattle_alloc(size n, size alignment);
Tried rattle_realloc(void *block, size kept, size n, size alignment);
void rattle_dealloc(void *block);

#endif
