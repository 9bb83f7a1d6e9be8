// The memory that the proved library asks for in a C program: its three calls, over malloc.
#include <stdbool.h>
#include <stddef.h>
#include <stdlib.h>

// Whether there was memory, and the block; where there is none the pointer is to an octet that is nobody's.
struct tried {
    bool ok;
    void *block;
};
static char nobodys;

static struct tried answer(void *block) { return (struct tried){block != NULL, block ? block : &nobodys}; }

// malloc aligns each block as the library asks.
struct tried rattle_alloc(size_t size, size_t align) {
    (void)align;
    return answer(malloc(size ? size : 1));
}

// Where there is no memory, the block is as it was.
struct tried rattle_realloc(void *block, size_t kept, size_t size, size_t align) {
    (void)kept, (void)align;
    return answer(realloc(block, size ? size : 1));
}

void rattle_dealloc(void *block) { free(block); }
