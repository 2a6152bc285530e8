/* What the library asks of the allocator, and what it is told: a line for each call, over the toolchain's objects or over c/heap.c. Linked with --wrap
 * for malloc, realloc and free. tests/run/c compares the lines. */
#include <stdbool.h>
#include <stddef.h>
#include <stdint.h>
#include <stdio.h>

struct tried {
    bool ok;
    void *at;
};

struct tried rattle_alloc(size_t size, size_t alignment);
struct tried rattle_realloc(void *block, size_t kept, size_t size, size_t alignment);
void rattle_dealloc(void *block);

void *__wrap_malloc(size_t size);
void *__wrap_realloc(void *block, size_t size);
void __wrap_free(void *block);

static unsigned char before[16], after[16];
static bool refuses;

void *__wrap_malloc(size_t size)
{
    printf("malloc %zu, ", size);
    return refuses ? NULL : after;
}

void *__wrap_realloc(void *block, size_t size)
{
    printf("realloc %s %zu, ", block == before ? "the block" : "another", size);
    return refuses ? NULL : after;
}

void __wrap_free(void *block) { printf("free %s\n", block == before ? "the block" : "another"); }

/* a refusal points to a byte, the same each time, that is nobody's */
static void tell(struct tried it)
{
    static void *nothing;
    bool is_own = it.at && it.at != before && it.at != after && (!nothing || it.at == nothing);
    if (!it.ok && !nothing) nothing = it.at;
    printf("%s\n", it.ok ? it.at == after ? "given" : "another" : is_own ? "refused" : "refused, and no byte of its own");
}

int main(void)
{
    static const size_t sizes[] = { 0, 1, 24, 4096, SIZE_MAX / 2 }, alignments[] = { 1, 2, 4, 8, 16 };
    for (int round = 0; round < 2; round++, refuses = true)
        for (size_t size = 0; size < sizeof sizes / sizeof *sizes; size++)
            for (size_t alignment = 0; alignment < sizeof alignments / sizeof *alignments; alignment++) {
                tell(rattle_alloc(sizes[size], alignments[alignment]));
                tell(rattle_realloc(before, 8, sizes[size], alignments[alignment]));
            }
    rattle_dealloc(before);
    return 0;
}
