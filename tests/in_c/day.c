/* A day of ten units that send a DM1 a second each, 864,000 messages, two of them by a broadcast: the station keeps the newest 16 of each
 * list and takes less than 1 MB, its counts are those of the day, and its lists the last 16 seconds. Writes a line for each that is
 * otherwise, and then the sums.
 *
 *     day             a day
 *     day SECONDS     fewer seconds, 16 or more
 *     day SECONDS KEEP UNITS      what so many units take where so many are kept, in a line, and no tries
 *
 * Linked with --wrap for malloc, realloc and free, which the archive calls. */
#include "tries.h"

#include <inttypes.h>
#include <malloc.h>
#include <stdlib.h>

void *__real_malloc(size_t size);
void *__real_realloc(void *block, size_t size);
void __real_free(void *block);

static size_t live, most;

static void *given(void *block)
{
    live += malloc_usable_size(block);
    if (live > most) most = live;
    return block;
}

void *__wrap_malloc(size_t size) { return given(__real_malloc(size)); }

void *__wrap_realloc(void *block, size_t size)
{
    live -= malloc_usable_size(block);
    void *moved = __real_realloc(block, size);
    return given(moved ? moved : block);
}

void __wrap_free(void *block)
{
    live -= malloc_usable_size(block);
    __real_free(block);
}

static hidzgula_station station = HIDZGULA_EMPTY;
static hidzgula_reply reply;
static hidzgula_change change;

static void take(uint32_t id, const uint8_t bytes[8])
{
    if (hidzgula_take_frame(&station, id, bytes, 8, &reply, &change) != HIDZGULA_DONE) abort();
}

/* the code of a unit in a second */
static uint32_t spn_of(uint32_t unit, uint32_t second) { return (second * 10 + unit) % 524288; }

static void dm1(uint32_t unit, uint32_t second)
{
    const uint32_t spn = spn_of(unit, second);
    const uint8_t code[4] = { (uint8_t)spn, (uint8_t)(spn >> 8), (uint8_t)(spn >> 16 << 5 | 3), 1 };
    if (unit % 5) {
        const uint8_t bytes[8] = { 0x04, 0xFF, code[0], code[1], code[2], code[3], 0xFF, 0xFF };
        take(0x18FECA00 | unit, bytes);
    } else {
        const uint8_t bam[8] = { 0x20, 14, 0, 2, 0xFF, 0xCA, 0xFE, 0 };
        const uint8_t first[8] = { 1, 0x04, 0xFF, code[0], code[1], code[2], code[3], 0x64 }, last[8] = { 2, 0, 1, 1, 0x65, 0, 1, 1 };
        take(0x1CECFF00 | unit, bam);
        take(0x1CEBFF00 | unit, first);
        take(0x1CEBFF00 | unit, last);
    }
    if (change.what != HIDZGULA_LISTED || change.name != 0x100 + unit || change.address != unit) failed++;
}

static void units_claim(uint32_t units)
{
    for (uint32_t unit = 0; unit < units; unit++) {
        const uint8_t name[8] = { (uint8_t)unit, 1, 0, 0, 0, 0, 0, 0 };
        take(0x18EEFF00 | unit, name);
    }
}

static void list_of(uint32_t unit, uint32_t seconds)
{
    hidzgula_entry_out entry = { 0, 0, 0 };
    hidzgula_code_out code = { 0, 0, 0 };
    uint64_t count = 0;
    is("entries", hidzgula_entries(&station, 0x100 + unit, HIDZGULA_DM1, &count), HIDZGULA_DONE);
    is("entries", count, seconds);
    for (uint32_t second = seconds - 16; second < seconds; second++) {
        is("an entry", hidzgula_entry(&station, 0x100 + unit, HIDZGULA_DM1, second, &entry), HIDZGULA_DONE);
        is("its codes", entry.codes, unit % 5 ? 1 : 3);
        is("its code", hidzgula_code(&station, 0x100 + unit, HIDZGULA_DM1, second, 0, &code), HIDZGULA_DONE);
        is("its code", code.spn, spn_of(unit, second));
    }
    if (seconds > 16) is("the one before", hidzgula_entry(&station, 0x100 + unit, HIDZGULA_DM1, seconds - 17, &entry), HIDZGULA_NOT_KEPT);
    if (seconds > 16) is("the first", hidzgula_code(&station, 0x100 + unit, HIDZGULA_DM1, 0, 0, &code), HIDZGULA_NOT_KEPT);
    is("the next", hidzgula_entry(&station, 0x100 + unit, HIDZGULA_DM1, seconds, &entry), HIDZGULA_NO_PLACE);
}

int main(int argc, char **argv)
{
    const uint32_t seconds = argc > 1 ? (uint32_t)strtoul(argv[1], NULL, 10) : 86400, keep = argc > 2 ? (uint32_t)strtoul(argv[2], NULL, 10) : 16;
    const uint32_t units = argc > 3 ? (uint32_t)strtoul(argv[3], NULL, 10) : 10;
    if (hidzgula_open(&station, 1, 248, 255, keep) != HIDZGULA_DONE) return 1;
    units_claim(units);
    for (uint32_t second = 0; second < seconds; second++)
        for (uint32_t unit = 0; unit < units; unit++) dm1(unit, second);
    if (argc > 3) {
        printf("%u NAMEs, %u kept of each list, %u messages each: memory %zu, %zu at most\n", units, keep, seconds, live, most);
        hidzgula_close(&station);
        return live != 0;
    }
    for (uint32_t unit = 0; unit < units; unit++) list_of(unit, seconds);
    is("what is taken of memory is below 1 MB", most < 1000000, 1);
    hidzgula_close(&station);
    is("what is left of memory", live, 0);
    return sums();
}
