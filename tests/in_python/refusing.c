/* What stands for malloc, realloc and free in a library for tests: it refuses the request that it is told to, and counts requests and the
 * blocks that are held. */
#include <stdbool.h>
#include <stddef.h>

void *__real_malloc(size_t size);
void *__real_realloc(void *block, size_t size);
void __real_free(void *block);
void *__wrap_malloc(size_t size);
void *__wrap_realloc(void *block, size_t size);
void __wrap_free(void *block);

/* which request from now on is refused, 1 for the next; 0 for none */
void hidzgula_refuse(size_t one);
size_t hidzgula_requests(void);
size_t hidzgula_live(void);

static size_t requests, refused_one, live;

static bool refuse(void) { return ++requests == refused_one; }

void hidzgula_refuse(size_t one)
{
    requests = 0;
    refused_one = one;
}

size_t hidzgula_requests(void) { return requests; }

size_t hidzgula_live(void) { return live; }

void *__wrap_malloc(size_t size)
{
    void *block = refuse() ? NULL : __real_malloc(size);
    if (block) live++;
    return block;
}

void *__wrap_realloc(void *block, size_t size)
{
    void *moved = refuse() ? NULL : __real_realloc(block, size);
    if (moved && !block) live++;
    return moved;
}

void __wrap_free(void *block)
{
    if (block) live--;
    __real_free(block);
}
