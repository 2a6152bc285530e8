/* Loaded before a program (LD_PRELOAD), has reads of its standard input and writes of its standard output fail. Where READ_OF is a number,
 * the reads of that descriptor in place of standard input.
 *
 * Calls of each are counted from 1. The reads from READ_FROM to READ_TO, and the writes from WRITE_FROM to WRITE_TO, are given
 * what HOW says: `error` (EIO), `interrupted` (EINTR), `short` (one byte is moved) or `nothing` (a write moves no byte). The
 * file that CALL_COUNTS names has two 64-bit numbers: how many reads and how many writes there were.
 */
#define _GNU_SOURCE
#include <errno.h>
#include <fcntl.h>
#include <stdlib.h>
#include <string.h>
#include <sys/mman.h>
#include <sys/syscall.h>
#include <unistd.h>

static struct { unsigned long first, last; } given[2];
static int descriptors[2] = {0, 1};
static const char *how = "error";
static unsigned long *counts;

static unsigned long number(const char *name) {
    const char *text = getenv(name);
    return text ? strtoul(text, NULL, 10) : 0;
}

__attribute__((constructor)) static void begin(void) {
    const char *path = getenv("CALL_COUNTS");
    int file = path ? open(path, O_RDWR) : -1;
    if (file < 0 || ftruncate(file, 16)) _exit(99);
    given[0].first = number("READ_FROM"), given[0].last = number("READ_TO");
    given[1].first = number("WRITE_FROM"), given[1].last = number("WRITE_TO");
    descriptors[0] = number("READ_OF");
    if (getenv("HOW")) how = getenv("HOW");
    counts = mmap(NULL, 16, PROT_READ | PROT_WRITE, MAP_SHARED, file, 0);
    if (counts == MAP_FAILED) _exit(99);
    close(file);
}

/* Makes a call number `call`, where that is 0 a read and where it is 1 a write, or has it fail. */
static ssize_t move(long call, int file, void *bytes, size_t count) {
    long system = call ? SYS_write : SYS_read;
    if (file != descriptors[call] || !counts) return syscall(system, file, bytes, count);
    unsigned long at = __atomic_add_fetch(&counts[call], 1, __ATOMIC_SEQ_CST);
    if (at < given[call].first || at > given[call].last) return syscall(system, file, bytes, count);
    if (!strcmp(how, "short")) return syscall(system, file, bytes, count ? 1UL : 0UL);
    if (!strcmp(how, "nothing")) return 0;
    errno = strcmp(how, "interrupted") ? EIO : EINTR;
    return -1;
}

ssize_t read(int file, void *bytes, size_t count) { return move(0, file, bytes, count); }
ssize_t write(int file, const void *bytes, size_t count) { return move(1, file, (void *)bytes, count); }
