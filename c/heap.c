/* How the library takes memory, for a processor that the toolchain has no such objects of: what its own three functions do on x86-64
 * (tests/in_c/heap.c compares them). The contracts of the crate `libc` (src/heap.rt) say what the proof asks of each. */
#include <stdbool.h>
#include <stddef.h>
#include <stdlib.h>

struct tried {
    bool ok;
    void *at; /* where there is no memory: a byte that nobody owns */
};

struct tried rattle_alloc(size_t size, size_t alignment);
struct tried rattle_realloc(void *block, size_t kept, size_t size, size_t alignment);
void rattle_dealloc(void *block);

static unsigned char nothing;

static struct tried answer(void *block)
{
    return (struct tried){ .ok = block != NULL, .at = block ? block : &nothing };
}

/* (a block of no bytes is one of as many as its alignment, so that NULL always says that memory was refused) */
struct tried rattle_alloc(size_t size, size_t alignment)
{
    return answer(malloc(size ? size : alignment));
}

struct tried rattle_realloc(void *block, size_t kept, size_t size, size_t alignment)
{
    (void)kept;
    return answer(realloc(block, size ? size : alignment));
}

void rattle_dealloc(void *block)
{
    free(block);
}
