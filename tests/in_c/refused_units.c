/* Refuses each request for memory of a simulated unit in turn. The calls are: open, some thousand calls of each kind that a seed chooses, close. In run N the
 * Nth request is refused: the call that made it must answer OUT_OF_MEMORY and write nothing, and the unit must hold, count and wait as before it.
 * The call is then made again, and the rest of the calls: each frame that the unit writes, and when, must be that of a unit that was refused
 * nothing, and all memory must have been given back. Queries take no memory.
 *
 * Linked with --wrap for malloc, realloc and free, which the archive calls. */
#include "hidzgula_station.h"

#include <stdio.h>
#include <stdlib.h>
#include <string.h>

void *__real_malloc(size_t size);
void *__real_realloc(void *block, size_t size);
void __real_free(void *block);
void *__wrap_malloc(size_t size);
void *__wrap_realloc(void *block, size_t size);
void __wrap_free(void *block);

/* how many requests there were, which one is refused, how many blocks are held, and whether requests count now */
static size_t requests, refused_one, live;
static bool counts, was_refused;

static bool refuse(void)
{
    if (!counts || ++requests != refused_one) return false;
    was_refused = true;
    return true;
}

void *__wrap_malloc(size_t size)
{
    void *block = refuse() ? NULL : __real_malloc(size);
    if (block) live++;
    return block;
}

void *__wrap_realloc(void *block, size_t size)
{
    void *moved = refuse() ? NULL : __real_realloc(block, size);
    if (moved && !block) live++;
    return moved;
}

void __wrap_free(void *block)
{
    if (block) live--;
    __real_free(block);
}

enum { STEPS = 1500, NAME = 0x1419907 };

static uint32_t seed;

static uint32_t drawn(uint32_t below)
{
    seed = seed * 1664525u + 1013904223u;
    return (seed >> 8) % below;
}

struct told {
    hidzgula_frame frame;
    uint8_t has;
};

static uint64_t sum;

static void add(uint64_t value) { sum = (sum ^ value) * 0x100000001B3u; }

static void add_frame(uint64_t now, const hidzgula_frame *frame)
{
    add(now);
    add(frame->id);
    for (int i = 0; i < frame->length; i++) add(frame->bytes[i]);
}

/* a frame of the bus: a request, what the receiver of a session says, a claim */
static uint32_t hear(hidzgula_unit *unit, uint32_t which, uint32_t more, uint64_t now)
{
    static const uint32_t asked[] = { HIDZGULA_PGN_DM1, HIDZGULA_PGN_DM2, HIDZGULA_PGN_DM6, HIDZGULA_PGN_DM3, HIDZGULA_PGN_ADDRESS_CLAIMED, 65259 };
    uint32_t pgn = asked[which % 6];
    const uint8_t request[3] = { (uint8_t)pgn, (uint8_t)(pgn >> 8), 0 };
    const uint8_t clear_to_send[8] = { 17, (uint8_t)(more % 20), (uint8_t)(1 + more % 3), 0xFF, 0xFF, (uint8_t)pgn, (uint8_t)(pgn >> 8), 0 };
    const uint8_t claim[8] = { 0xA0, 0, 0, 0, 0, 0, 0, 0x80 };
    if (more < 60) return hidzgula_unit_hear(unit, 0x18EA80F9, request, 3, now);
    if (more < 70) return hidzgula_unit_hear(unit, 0x18EAFFF9, request, 3, now);
    if (more < 95) return hidzgula_unit_hear(unit, 0x1CEC80F9, clear_to_send, 8, now);
    return hidzgula_unit_hear(unit, 0x18EEFF80, claim, 8, now);
}

static uint32_t done(hidzgula_unit *unit, uint32_t what, uint32_t which, uint32_t more, uint64_t now, struct told *told)
{
    uint32_t answer;
    counts = true;
    if (what < 15) answer = hidzgula_unit_set(unit, which % 40, 1);
    else if (what < 18) answer = hidzgula_unit_heal(unit, which % 40, 1);
    else if (what < 24) answer = hidzgula_unit_pend(unit, which % 40, 2);
    else if (what < 26) answer = hidzgula_unit_unpend(unit, which % 40, 2);
    else if (what < 30) answer = hidzgula_unit_lamps(unit, (uint8_t)which, 0xFF);
    else if (what < 35) answer = hidzgula_unit_begin(unit, which % 3 == 0 ? HIDZGULA_DM1 : which % 3 == 1 ? HIDZGULA_DM2 : HIDZGULA_DM6);
    else if (what < 60) answer = hear(unit, which, more, now);
    else answer = hidzgula_unit_next(unit, now, &told->frame, &told->has);
    counts = false;
    return answer;
}

/* what a unit tells of itself, by which no memory may be taken */
struct state {
    hidzgula_unit_counts_out counts;
    uint64_t at;
    uint8_t has, address;
};

static struct state state_of(hidzgula_unit *unit, uint64_t now)
{
    struct state state;
    memset(&state, 0, sizeof state);
    size_t before = requests;
    counts = true;
    hidzgula_unit_counts(unit, &state.counts);
    hidzgula_unit_when(unit, now, &state.at);
    hidzgula_unit_held(unit, &state.has, &state.address);
    counts = false;
    if (requests != before) state.at = ~state.at;
    return state;
}

static uint32_t opened(hidzgula_unit *unit)
{
    const hidzgula_unit_settings usual = HIDZGULA_USUAL_SETTINGS;
    counts = true;
    uint32_t answer = hidzgula_unit_open(unit, NAME, 128, &usual);
    counts = false;
    return answer;
}

/* one run, in which one request is refused; NULL where all is well */
static const char *run(size_t one, unsigned *at)
{
    hidzgula_unit unit = HIDZGULA_EMPTY;
    struct told told, filled;
    uint64_t now = 0;
    requests = live = 0;
    refused_one = one;
    was_refused = false;
    sum = 0xCBF29CE484222325u;
    seed = 7;
    *at = 0;
    memset(&filled, 0xA5, sizeof filled);
    if (opened(&unit) != HIDZGULA_DONE) {
        if (!was_refused || unit.full || unit.at || live) return "open was refused otherwise, or wrote to the handle, or kept memory";
        if (opened(&unit) != HIDZGULA_DONE) return "open was refused twice";
    } else if (was_refused) {
        return "open was done without memory";
    }
    bool seen = was_refused;
    for (unsigned i = 0; i < STEPS; i++) {
        uint32_t what = drawn(100), which = drawn(256), more = drawn(100);
        now += drawn(3) ? 0 : drawn(100000);
        struct state before = state_of(&unit, now);
        memcpy(&told, &filled, sizeof told);
        uint32_t answer = done(&unit, what, which, more, now, &told);
        if (was_refused && !seen) {
            seen = true;
            *at = i;
            struct state after = state_of(&unit, now);
            if (answer != HIDZGULA_OUT_OF_MEMORY) return "a call without memory answers something else";
            if (memcmp(&told, &filled, sizeof told) != 0) return "a refused call writes";
            if (memcmp(&before, &after, sizeof after) != 0) return "a refused call changes the unit";
            answer = done(&unit, what, which, more, now, &told);
        }
        if (answer == HIDZGULA_OUT_OF_MEMORY) return "memory was refused by nobody";
        add(answer);
        if (what >= 60 && told.has) add_frame(now, &told.frame);
        if (more == 99 && what >= 35 && what < 60) { /* without address it would do nothing more */
            hidzgula_unit_close(&unit);
            refused_one = seen ? 0 : refused_one;
            if (opened(&unit) != HIDZGULA_DONE) {
                if (!was_refused || seen) return "open was refused otherwise";
                seen = true;
                if (opened(&unit) != HIDZGULA_DONE) return "open was refused twice";
            }
        }
    }
    hidzgula_unit_close(&unit);
    return live ? "memory was not given back" : NULL;
}

int main(void)
{
    size_t passed = 0, failed = 0;
    unsigned at = 0;
    const char *wrong = run(0, &at);
    size_t total = requests;
    uint64_t whole = sum;
    if (wrong || total < 50) printf("without refusal: %s, %zu requests\n", wrong ? wrong : "too few", total);
    if (wrong || total < 50) failed++;
    else passed++;
    for (size_t one = 1; one <= total; one++) {
        wrong = run(one, &at);
        if (!wrong && !was_refused) wrong = "the request was not made";
        if (!wrong && sum != whole) wrong = "what was written differs";
        if (wrong) printf("request %zu, at call %u: %s\n", one, at, wrong);
        if (wrong) failed++;
        else passed++;
    }
    printf("%zu passed, %zu failed\n", passed, failed);
    return failed != 0;
}
