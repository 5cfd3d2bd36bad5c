// The one memory of a WebAssembly module: its ends, how it grows, and the copies that the compiler calls.
#include "memory.h"

enum { PAGE = 65536 };

extern byte __heap_base; // the linker's: after the stack and all data

byte *memory_begin(void) { return &__heap_base; }

byte *memory_end(void) { return (byte *)(__builtin_wasm_memory_size(0) * PAGE); }

int memory_grow(size bytes) { return __builtin_wasm_memory_grow(0, (bytes + PAGE - 1) / PAGE) != (size)-1; }

// Each of these is one instruction of WebAssembly.
void copy_bytes(byte *to, const byte *from, size n) { __builtin_memmove(to, from, n); }

void *memmove(void *to, const void *from, size n) { return __builtin_memmove(to, from, n); }

void *memcpy(void *to, const void *from, size n) { return __builtin_memmove(to, from, n); }

void *memset(void *to, int value, size n) { return __builtin_memset(to, value, n); }
