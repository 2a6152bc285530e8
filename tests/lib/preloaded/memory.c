/* Loaded before a program (LD_PRELOAD), refuses some of its requests for memory.
 *
 * Requests are counted from 1, from the program's start on. Those from REFUSE_FROM to REFUSE_TO are refused. With LEAVE_SPACE
 * the address space may grow by so many KiB from then on; a stack of two MiB is taken first, since a stack that cannot grow is no
 * request. The file that REFUSE_COUNTS names has two 64-bit numbers: how many requests there were, and how many of them were
 * refused, here or for want of space.
 */
#include <errno.h>
#include <fcntl.h>
#include <stdlib.h>
#include <sys/mman.h>
#include <sys/resource.h>
#include <unistd.h>

extern void *__libc_malloc(size_t), *__libc_calloc(size_t, size_t), *__libc_realloc(void *, size_t);
extern void *__libc_memalign(size_t, size_t);

static unsigned long first, last;
static unsigned long *counts;

static __attribute__((noinline)) void take_stack(void) {
    volatile char room[2 << 20];
    for (size_t at = 0; at < sizeof room; at += 1024) room[at] = 0;
}

/* Lets the address space grow by so many KiB from now on. The first number of /proc/self/statm is its pages. */
static void leave_space(unsigned long kibibytes) {
    char text[64] = {0};
    int file = open("/proc/self/statm", O_RDONLY);
    if (file < 0 || read(file, text, sizeof text - 1) <= 0) _exit(99);
    close(file);
    unsigned long most = strtoul(text, NULL, 10) * sysconf(_SC_PAGESIZE) + kibibytes * 1024;
    struct rlimit limit = {most, most};
    if (setrlimit(RLIMIT_AS, &limit)) _exit(99);
}

__attribute__((constructor)) static void begin(void) {
    const char *space = getenv("LEAVE_SPACE"), *path = getenv("REFUSE_COUNTS"), *from = getenv("REFUSE_FROM"), *to = getenv("REFUSE_TO");
    int file = path ? open(path, O_RDWR) : -1;
    first = from ? strtoul(from, NULL, 10) : 0;
    last = to ? strtoul(to, NULL, 10) : 0;
    if (file < 0 || ftruncate(file, 16)) _exit(99);
    counts = mmap(NULL, 16, PROT_READ | PROT_WRITE, MAP_SHARED, file, 0);
    if (counts == MAP_FAILED) _exit(99);
    close(file);
    take_stack();
    if (space) leave_space(strtoul(space, NULL, 10));
}

/* Counts a request, and says whether it may be granted. */
static int may_have(void) {
    if (!counts) return 1;
    unsigned long number = __atomic_add_fetch(&counts[0], 1, __ATOMIC_SEQ_CST);
    return number < first || number > last;
}

/* What a request is given, which is counted as refused where that is nothing. */
static void *given(void *made) {
    if (made || !counts) return made;
    __atomic_add_fetch(&counts[1], 1, __ATOMIC_SEQ_CST);
    errno = ENOMEM;
    return NULL;
}

void *malloc(size_t size) { return given(may_have() ? __libc_malloc(size) : NULL); }
void *calloc(size_t count, size_t size) { return given(may_have() ? __libc_calloc(count, size) : NULL); }
void *realloc(void *old, size_t size) { return given(may_have() ? __libc_realloc(old, size) : NULL); }
void *aligned_alloc(size_t step, size_t size) { return given(may_have() ? __libc_memalign(step, size) : NULL); }
void *memalign(size_t step, size_t size) { return given(may_have() ? __libc_memalign(step, size) : NULL); }

int posix_memalign(void **place, size_t step, size_t size) {
    void *made = aligned_alloc(step, size);
    if (made) *place = made;
    return made ? 0 : ENOMEM;
}
