/* Counts tries, and frames that the tries are made of. */
#include "hidzgula_station.h"

#include <stdio.h>
#include <string.h>

static unsigned passed, failed;

static void is(const char *what, unsigned long got, unsigned long wanted)
{
    if (got == wanted) {
        passed++;
    } else {
        failed++;
        printf("%s: %lu, wanted %lu\n", what, got, wanted);
    }
}

/* the sums, and the status of the program */
static int sums(void)
{
    printf("%u passed, %u failed\n", passed, failed);
    return failed != 0;
}
