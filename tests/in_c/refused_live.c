/* Refuses each request for memory of a live station in turn. The calls are: open, some thousand calls of each kind that a seed chooses, close. In run N
 * the Nth request is refused: the call that made it must answer OUT_OF_MEMORY and write nothing, and the station must tell and wait as before it. The
 * call is then made again, and the rest of the calls: each frame that the station writes, when, each change and each verdict must be those of a station
 * that was refused nothing, and all memory must have been given back. Queries, orders and `next` take no memory.
 *
 * Linked with --wrap for malloc, realloc and free, which the archive calls. */
#include "hidzgula_station.h"

#include <stdio.h>
#include <stdlib.h>
#include <string.h>

void *__real_malloc(size_t size);
void *__real_realloc(void *block, size_t size);
void __real_free(void *block);
void *__wrap_malloc(size_t size);
void *__wrap_realloc(void *block, size_t size);
void __wrap_free(void *block);

/* how many requests there were, which one is refused, how many blocks are held, and whether requests count now */
static size_t requests, refused_one, held_blocks;
static bool counts, was_refused;

static bool refuse(void)
{
    if (!counts || ++requests != refused_one) return false;
    was_refused = true;
    return true;
}

void *__wrap_malloc(size_t size)
{
    void *block = refuse() ? NULL : __real_malloc(size);
    if (block) held_blocks++;
    return block;
}

void *__wrap_realloc(void *block, size_t size)
{
    void *moved = refuse() ? NULL : __real_realloc(block, size);
    if (moved && !block) held_blocks++;
    return moved;
}

void __wrap_free(void *block)
{
    if (block) held_blocks--;
    __real_free(block);
}

enum { STEPS = 3000, OWN = 249, UNITS = 12, VIN = 65260 };

static uint32_t seed;

static uint32_t drawn(uint32_t below)
{
    seed = seed * 1664525u + 1013904223u;
    return (seed >> 8) % below;
}

/* what a call may write */
struct told {
    hidzgula_change change;
    hidzgula_frame frame;
    uint8_t has;
};

static uint64_t sum;

static void add(uint64_t value) { sum = (sum ^ value) * 0x100000001B3u; }

/* a frame is heard by the groups that are shared, and by the station where it is not theirs alone */
static uint32_t heard(hidzgula_live *live, uint32_t id, const uint8_t *bytes, uint64_t now, hidzgula_change *change)
{
    uint8_t withheld = 0, whole = 0;
    uint32_t answer = hidzgula_live_shared_hear(live, id, bytes, 8, &withheld, &whole);
    if (answer != HIDZGULA_DONE || withheld) return answer;
    return hidzgula_live_hear(live, id, bytes, 8, now, change);
}

/* a frame from one of some units: a claim, a DM1, what begins a session of a DM2 or a VIN and its packets, an acknowledgment, a request */
static uint32_t hear(hidzgula_live *live, uint32_t which, uint32_t more, uint64_t now, hidzgula_change *change)
{
    uint32_t from = which % UNITS;
    const uint8_t claim[8] = { (uint8_t)(0xA0 + more % UNITS), 0, 0, 0, 0, 0, 0, 0x80 };
    const uint8_t dm1[8] = { 0x04, 0xFF, (uint8_t)more, 1, 3, 1, 0xFF, 0xFF };
    const uint8_t rts[8] = { 16, 10, 0, 2, 0xFF, HIDZGULA_PGN_DM2 & 0xFF, HIDZGULA_PGN_DM2 >> 8, 0 };
    const uint8_t vin[8] = { 16, 10, 0, 2, 0xFF, VIN & 0xFF, VIN >> 8, 0 };
    const uint8_t bam[8] = { 32, 10, 0, 2, 0xFF, HIDZGULA_PGN_DM1 & 0xFF, HIDZGULA_PGN_DM1 >> 8, 0 };
    /* two codes that can be read: what cannot be needs no memory to be counted */
    const uint8_t first[8] = { 1, 0, 0xFF, (uint8_t)which, 1, 3, 1, 7 }, second[8] = { 2, 1, 3, 1, 0xFF, 0xFF, 0xFF, 0xFF };
    const uint8_t *packet = more % 2 ? second : first;
    const uint8_t ack[8] = { (uint8_t)(more % 4), 0xFF, 0xFF, 0xFF, OWN, HIDZGULA_PGN_DM3 & 0xFF, HIDZGULA_PGN_DM3 >> 8, 0 };
    const uint8_t request[3] = { 0, 0xEE, 0 };
    switch (which / UNITS % 8) {
    case 0:
        return heard(live, 0x18EEFF00 | from, claim, now, change);
    case 1:
        return hidzgula_live_hear(live, 0x18FECA00 | from, dm1, 8, now, change);
    case 2:
        return heard(live, 0x1CECF900 | from, more % 3 ? rts : vin, now, change);
    case 3:
        return hidzgula_live_hear(live, 0x1CECFF00 | from, bam, 8, now, change);
    case 4:
        return heard(live, 0x1CEBF900 | from, packet, now, change);
    case 5:
        return hidzgula_live_hear(live, 0x1CEBFF00 | from, packet, 8, now, change);
    case 6:
        return hidzgula_live_hear(live, 0x18E8FF00 | from, ack, 8, now, change);
    default:
        return hidzgula_live_hear(live, 0x18EAF900 | from, request, 3, now, change);
    }
}

static uint32_t ordered(hidzgula_live *live, uint32_t which, uint32_t more)
{
    static const uint32_t groups[] = { HIDZGULA_PGN_DM1, HIDZGULA_PGN_DM2, HIDZGULA_PGN_DM6, HIDZGULA_PGN_ADDRESS_CLAIMED };
    uint64_t name = 0x8000000000000000 | (0xA0 + which % UNITS);
    if (more < 50) return hidzgula_live_ask(live, name, groups[more % 4]);
    if (more < 60) return hidzgula_live_ask_all(live, groups[more % 4]);
    if (more < 90) return hidzgula_live_clear(live, name, more % 2 ? HIDZGULA_PGN_DM3 : HIDZGULA_PGN_DM11);
    return hidzgula_live_command(live, name, (uint8_t)more);
}

static const uint8_t payload[100];

static uint32_t done(hidzgula_live *live, uint32_t what, uint32_t which, uint32_t more, uint64_t now, struct told *told)
{
    uint32_t answer;
    counts = true;
    if (what < 5) answer = hidzgula_live_shared_send(live, (uint8_t)(which % UNITS), VIN, payload, more);
    else if (what < 55) answer = hear(live, which, more, now, &told->change);
    else if (what < 60) answer = ordered(live, which, more);
    else if (what == 60 && more < 10) answer = hidzgula_live_missed(live, more, now, &told->change);
    else answer = more % 2 ? hidzgula_live_next(live, now, &told->frame, &told->has) : hidzgula_live_shared_next(live, now, &told->frame, &told->has);
    counts = false;
    return answer;
}

/* a sum over all that a station tells, by which no memory may be taken */
static uint64_t told_by(hidzgula_live *live, uint64_t now)
{
    static const uint8_t kinds[] = { HIDZGULA_DM1, HIDZGULA_DM2, HIDZGULA_DM6 };
    uint64_t kept = sum, at = 0, missed = 0, unread = 0;
    size_t rows = 0, before = requests;
    uint8_t has = 0, address = 0;
    hidzgula_verdict verdict;
    static hidzgula_message message;
    memset(&verdict, 0, sizeof verdict);
    memset(&message, 0, sizeof message);
    sum = 0xCBF29CE484222325u;
    counts = true;
    add(hidzgula_live_when(live, now, &at));
    add(at);
    add(hidzgula_live_shared_when(live, now, &at));
    add(at);
    add(hidzgula_live_shared_message(live, &message));
    add(hidzgula_live_shared_sent(live, &has, &address));
    add(has * 256u + address);
    add(message.name ^ (message.size * 256u + message.bytes[1]));
    add(hidzgula_live_held(live, &has, &address));
    add(has * 256u + address);
    add(hidzgula_live_counts(live, &missed, &unread));
    add(missed * 65536 + unread);
    add(hidzgula_live_verdict(live, &verdict));
    add(verdict.name ^ verdict.after);
    add(verdict.what * 16777216u + verdict.detail * 65536u + verdict.left * 256u + verdict.tries);
    add(hidzgula_live_rows(live, &rows));
    for (size_t i = 0; i < rows; i++) {
        hidzgula_row_out row = { 0, 0, 0, 0, 0, 0 };
        add(hidzgula_live_row(live, i, &row));
        add(hidzgula_live_row_of(live, row.name, &row));
        add(row.name ^ ((row.has_address * 256u + row.address) * 65536u + row.has_ack * 256u + row.ack_control));
        for (size_t j = 0; j < 3; j++) {
            uint64_t entries = 0;
            hidzgula_entry_out entry = { 0, 0, 0 };
            hidzgula_code_out code = { 0, 0, 0 };
            add(hidzgula_live_entries(live, row.name, kinds[j], &entries));
            add(entries);
            add(hidzgula_live_entry(live, row.name, kinds[j], entries - 1, &entry));
            add(hidzgula_live_code(live, row.name, kinds[j], entries - 1, 0, &code));
            add(entry.codes * 16777216u + code.spn);
        }
    }
    counts = false;
    uint64_t result = requests == before ? sum : ~sum;
    sum = kept;
    return result;
}

static uint32_t opened(hidzgula_live *live)
{
    const hidzgula_live_settings settings = { 50000, 250000, 3, 255 };
    counts = true;
    uint32_t answer = hidzgula_live_open(live, 0xFA, OWN, &settings);
    counts = false;
    return answer;
}

/* it shares a group, at the second try where memory was refused */
static bool shares(hidzgula_live *live)
{
    counts = true;
    uint32_t answer = hidzgula_live_share(live, VIN);
    if (answer == HIDZGULA_OUT_OF_MEMORY && was_refused) answer = hidzgula_live_share(live, VIN);
    counts = false;
    return answer == HIDZGULA_DONE;
}

/* one run, in which one request is refused; NULL where all is well */
static const char *run(size_t one, unsigned *at)
{
    hidzgula_live live = HIDZGULA_EMPTY;
    struct told told, filled;
    uint64_t now = 0;
    requests = held_blocks = 0;
    refused_one = one;
    was_refused = false;
    sum = 0xCBF29CE484222325u;
    seed = 7;
    *at = 0;
    memset(&filled, 0xA5, sizeof filled);
    if (opened(&live) != HIDZGULA_DONE) {
        if (!was_refused || live.full || live.at || held_blocks) return "open was refused otherwise, or wrote to the handle, or kept memory";
        if (opened(&live) != HIDZGULA_DONE) return "open was refused twice";
    } else if (was_refused) {
        return "open was done without memory";
    }
    if (!shares(&live)) return "a group is not shared";
    bool seen = was_refused;
    for (unsigned i = 0; i < STEPS; i++) {
        uint32_t what = drawn(100), which = drawn(256), more = drawn(100);
        now += drawn(3) ? 0 : drawn(100000);
        uint64_t before = told_by(&live, now);
        memcpy(&told, &filled, sizeof told);
        uint32_t answer = done(&live, what, which, more, now, &told);
        if (was_refused && !seen) {
            seen = true;
            *at = i;
            if (answer != HIDZGULA_OUT_OF_MEMORY) return "a call without memory answers something else";
            if (memcmp(&told, &filled, sizeof told) != 0) return "a refused call writes";
            if (told_by(&live, now) != before) return "a refused call changes the station";
            answer = done(&live, what, which, more, now, &told);
        }
        if (answer == HIDZGULA_OUT_OF_MEMORY) return "memory was refused by nobody";
        add(answer);
        add(told.has == 1 ? now ^ told.frame.id : told.change.what);
    }
    add(told_by(&live, now));
    hidzgula_live_close(&live);
    return held_blocks ? "memory was not given back" : NULL;
}

int main(void)
{
    size_t passed = 0, failed = 0;
    unsigned at = 0;
    const char *wrong = run(0, &at);
    size_t total = requests;
    uint64_t whole = sum;
    if (wrong || total < 50) printf("without refusal: %s, %zu requests\n", wrong ? wrong : "too few", total);
    if (wrong || total < 50) failed++;
    else passed++;
    for (size_t one = 1; one <= total; one++) {
        wrong = run(one, &at);
        if (!wrong && !was_refused) wrong = "the request was not made";
        if (!wrong && sum != whole) wrong = "what was written or told differs";
        if (wrong) printf("request %zu, at call %u: %s\n", one, at, wrong);
        if (wrong) failed++;
        else passed++;
    }
    printf("%zu passed, %zu failed\n", passed, failed);
    return failed != 0;
}
