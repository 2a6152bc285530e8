/* What a station, a simulated unit and a live station take: the stack of each call, seen on a thread's stack that was painted before, and the memory, by counting what
 * malloc and realloc give. The candump log comes on standard input; the word that the program is given is how many entries of each list are
 * kept, all where there is none. A line for each figure. */
#define _GNU_SOURCE
#include "log.h"

#include <inttypes.h>
#include <malloc.h>
#include <pthread.h>
#include <stdio.h>
#include <stdlib.h>
#include <string.h>
#include <sys/mman.h>

void *__real_malloc(size_t size);
void *__real_realloc(void *block, size_t size);
void __real_free(void *block);

static size_t live, most, requests;

static void *given(void *block)
{
    requests++;
    live += malloc_usable_size(block);
    if (live > most) most = live;
    return block;
}

void *__wrap_malloc(size_t size) { return given(__real_malloc(size)); }

void *__wrap_realloc(void *block, size_t size)
{
    live -= malloc_usable_size(block);
    return given(__real_realloc(block, size));
}

void __wrap_free(void *block)
{
    live -= malloc_usable_size(block);
    __real_free(block);
}

enum { STACK = 1 << 20 };

static hidzgula_station station = HIDZGULA_EMPTY;
static uint32_t keep = UINT32_MAX;
static void *nothing(void *unused) { return unused; }

static void *open_one(void *unused)
{
    if (hidzgula_open(&station, 1, 248, 255, keep) != HIDZGULA_DONE) abort();
    return unused;
}

static void *take_all(void *unused)
{
    hidzgula_reply reply;
    hidzgula_change change;
    for (size_t i = 0; i < frame_count; i++)
        if (hidzgula_take_frame(&station, frames[i].id, frames[i].bytes, frames[i].length, &reply, &change) != HIDZGULA_DONE) abort();
    return unused;
}

static void *take_rows(void *unused)
{
    static hidzgula_change changes[64];
    hidzgula_reply reply;
    size_t taken = 0;
    for (size_t at = 0; at < frame_count; at += taken)
        if (hidzgula_take_frames(&station, frames + at, frame_count - at, changes, 64, &reply, &taken) != HIDZGULA_DONE) abort();
    return unused;
}

/* a line of each kind */
static void *read_lines(void *unused)
{
    static const char text[] = "(1.000000) can0 18FECA00#04FF6E000001FFFF\n can0  18FECA00   [2]  04 FF\n(2026-11-27 10:00:00.000000) can0 18FECA00#R\n# note\n"
                               "DROPCOUNT: dropped 7 CAN frames on 'can0' socket (total drops 7)\n(x) can0\n(1.000000) can0 18FECA00#0G\n";
    hidzgula_frame read_frame[4];
    hidzgula_logged logged[4];
    hidzgula_read read;
    for (size_t at = 0; at < sizeof text - 1; at += read.bytes) hidzgula_read_log(text + at, sizeof text - 1 - at, "can0", 4, read_frame, 4, logged, 4, &read);
    return unused;
}

static void *order(void *unused)
{
    hidzgula_reply reply;
    hidzgula_ask_all(&station, HIDZGULA_PGN_DM1, &reply);
    hidzgula_ask(&station, 0x1000000001419907, HIDZGULA_PGN_DM1, &reply);
    hidzgula_command(&station, 0x1000000001419907, 100, &reply);
    return unused;
}

static void *ask_for_lists(void *unused)
{
    hidzgula_row_out row;
    hidzgula_entry_out entry;
    hidzgula_code_out code;
    uint64_t count = 0;
    hidzgula_row(&station, 0, &row);
    hidzgula_entries(&station, row.name, HIDZGULA_DM1, &count);
    hidzgula_entry(&station, row.name, HIDZGULA_DM1, count - 1, &entry);
    hidzgula_code(&station, row.name, HIDZGULA_DM1, count - 1, 0, &code);
    return unused;
}

static void *miss(void *unused)
{
    hidzgula_reply reply;
    hidzgula_change change;
    if (hidzgula_take_gap(&station, 1, &reply, &change) != HIDZGULA_DONE) abort();
    return unused;
}

static void *begin_anew(void *unused)
{
    uint8_t anew;
    hidzgula_make_room(&station, 1, &anew);
    return unused;
}

static void *close_it(void *unused)
{
    hidzgula_close(&station);
    return unused;
}

static hidzgula_unit unit = HIDZGULA_EMPTY;

static void *open_unit(void *unused)
{
    const hidzgula_unit_settings usual = HIDZGULA_USUAL_SETTINGS;
    if (hidzgula_unit_open(&unit, 0x1000000001419907, 0, &usual) != HIDZGULA_DONE) abort();
    return unused;
}

/* 445 codes, each set, and every other one healed */
static void *fill_memory(void *unused)
{
    for (uint32_t spn = 0; spn < 445; spn++) hidzgula_unit_set(&unit, spn, 1);
    for (uint32_t spn = 0; spn < 445; spn += 2) hidzgula_unit_heal(&unit, spn, 1);
    hidzgula_unit_lamps(&unit, 4, 255);
    return unused;
}

static uint64_t now;

/* all that is due now */
static void *ask_for_frames(void *unused)
{
    hidzgula_frame frame;
    for (uint8_t has = 1; has; now += 50000)
        if (hidzgula_unit_next(&unit, now, &frame, &has) != HIDZGULA_DONE) abort();
    return unused;
}

/* the frames of the log, a millisecond apart, each with all that is due; and the requests for its messages, and the leave for their packets */
static void *hear_all(void *unused)
{
    static const uint8_t asked[][3] = { { 0xCA, 0xFE, 0 }, { 0xCB, 0xFE, 0 }, { 0, 0xEE, 0 }, { 0xD3, 0xFE, 0 } };
    static const uint8_t leave[] = { 17, 255, 1, 0xFF, 0xFF, 0xCA, 0xFE, 0 };
    hidzgula_frame frame;
    uint8_t has = 1;
    for (size_t i = 0; i < 4; i++) {
        hidzgula_unit_hear(&unit, 0x18EA00F9, asked[i], 3, now);
        if (i == 0) hidzgula_unit_hear(&unit, 0x1CEC00F9, leave, 8, now);
    }
    for (size_t i = 0; i < frame_count; i++, now += 1000) {
        hidzgula_unit_hear(&unit, frames[i].id, frames[i].bytes, frames[i].length, now);
        while (hidzgula_unit_next(&unit, now, &frame, &has) == HIDZGULA_DONE && has) continue;
    }
    return unused;
}

static void *ask_unit(void *unused)
{
    hidzgula_unit_counts_out counts;
    uint64_t at;
    uint8_t has, address;
    hidzgula_unit_counts(&unit, &counts);
    hidzgula_unit_when(&unit, now, &at);
    hidzgula_unit_held(&unit, &has, &address);
    return unused;
}

static void *begin_all(void *unused)
{
    hidzgula_unit_begin(&unit, HIDZGULA_DM1);
    hidzgula_unit_begin(&unit, HIDZGULA_DM2);
    hidzgula_unit_begin(&unit, HIDZGULA_DM6);
    return unused;
}

static void *close_unit(void *unused)
{
    hidzgula_unit_close(&unit);
    return unused;
}

static hidzgula_live tester = HIDZGULA_EMPTY;

static void *open_live(void *unused)
{
    const hidzgula_live_settings settings = { 50000, 250000, keep, 255 };
    if (hidzgula_live_open(&tester, 0x10000000000000FA, 248, &settings) != HIDZGULA_DONE) abort();
    return unused;
}

/* the frames of the log, a millisecond apart, each with all that goes; and orders, one behind the other */
static void *live_hears_all(void *unused)
{
    hidzgula_frame frame;
    hidzgula_change change;
    hidzgula_verdict verdict;
    uint8_t has = 1;
    for (size_t i = 0; i < frame_count; i++, now += 1000) {
        hidzgula_live_hear(&tester, frames[i].id, frames[i].bytes, frames[i].length, now, &change);
        while (hidzgula_live_next(&tester, now, &frame, &has) == HIDZGULA_DONE && has) continue;
        hidzgula_live_verdict(&tester, &verdict);
        if (verdict.what == HIDZGULA_OPEN) continue;
        if (i % 3 == 0) hidzgula_live_ask(&tester, 0x1000000001419907, HIDZGULA_PGN_DM2);
        else if (i % 3 == 1) hidzgula_live_clear(&tester, 0x1000000001419907, HIDZGULA_PGN_DM3);
        else hidzgula_live_command(&tester, 0x1000000001419907, 100);
    }
    hidzgula_live_missed(&tester, 1, now, &change);
    return unused;
}

static void *ask_live(void *unused)
{
    hidzgula_row_out row;
    hidzgula_entry_out entry;
    hidzgula_code_out code;
    uint64_t at, entries;
    size_t rows;
    hidzgula_live_when(&tester, now, &at);
    hidzgula_live_rows(&tester, &rows);
    hidzgula_live_row(&tester, 0, &row);
    hidzgula_live_entries(&tester, row.name, HIDZGULA_DM1, &entries);
    hidzgula_live_entry(&tester, row.name, HIDZGULA_DM1, entries - 1, &entry);
    hidzgula_live_code(&tester, row.name, HIDZGULA_DM1, entries - 1, 0, &code);
    return unused;
}

static void *begin_live_anew(void *unused)
{
    uint8_t anew;
    hidzgula_live_end(&tester, now);
    hidzgula_live_make_room(&tester, 1, &anew);
    return unused;
}

static void *close_live(void *unused)
{
    hidzgula_live_close(&tester);
    return unused;
}

/* how many bytes of its stack a thread with this work touched */
static size_t stack_of(void *(*work)(void *))
{
    unsigned char *stack = mmap(NULL, STACK, PROT_READ | PROT_WRITE, MAP_PRIVATE | MAP_ANONYMOUS, -1, 0);
    pthread_attr_t attributes;
    pthread_t thread;
    size_t untouched = 0;
    if (stack == MAP_FAILED) abort();
    memset(stack, 0xA5, STACK);
    if (pthread_attr_init(&attributes) || pthread_attr_setstack(&attributes, stack, STACK) || pthread_create(&thread, &attributes, work, NULL)
        || pthread_join(thread, NULL))
        abort();
    while (untouched < STACK && stack[untouched] == 0xA5) untouched++;
    munmap(stack, STACK);
    return STACK - untouched;
}

int main(int argc, char **argv)
{
    static const struct {
        const char *name;
        void *(*work)(void *);
    } works[] = { { "open", open_one }, { "take_frame", take_all }, { "queries", ask_for_lists }, { "orders", order }, { "take_gap", miss },
        { "take_frames", take_rows }, { "read_log", read_lines }, { "make_room", begin_anew }, { "close", close_it }, { "unit_open", open_unit }, { "unit_set, heal, lamps", fill_memory },
        { "unit_next", ask_for_frames }, { "unit_begin", begin_all }, { "unit_hear and next", hear_all }, { "unit queries", ask_unit }, { "unit_close", close_unit },
        { "live_open", open_live }, { "live_hear, next and orders", live_hears_all }, { "live queries", ask_live }, { "live_end, make_room", begin_live_anew }, { "live_close", close_live } };
    if (argc > 1) keep = (uint32_t)strtoul(argv[1], NULL, 10);
    read_frames();
    size_t base = stack_of(nothing);
    for (size_t i = 0; i < sizeof works / sizeof works[0]; i++) {
        size_t stack = stack_of(works[i].work);
        printf("%s: stack %zu, memory %zu after it, %zu at most, in %zu requests so far\n", works[i].name, stack > base ? stack - base : 0, live, most, requests);
    }
    return live != 0;
}
