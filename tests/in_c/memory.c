/* Refuses each request for memory in turn, of a station that answers and keeps all entries, of one that keeps the
 * newest three of each list, and of one that keeps none. The calls are: open, the frames of the candump log on standard input with a gap
 * after every 1000 and the three orders after every 200, close. In run N the Nth request is refused: the call that made it must answer
 * OUT_OF_MEMORY and write nothing, and what the station tells after it, lists and all, must be what a station tells that did the calls
 * before it alone. The call is then made again, and the rest of the calls; at the end the station must tell the same as one that was
 * refused nothing, each call must have told the same change, and all memory must have been given back.
 *
 * Linked with --wrap for malloc, realloc and free, which the archive calls. */
#include "told.h"

#include <inttypes.h>
#include <stdio.h>
#include <stdlib.h>
#include <string.h>

void *__real_malloc(size_t size);
void *__real_realloc(void *block, size_t size);
void __real_free(void *block);

/* how many requests there were, which one is refused, how many blocks are held, and whether requests count now */
static size_t requests, refused_one, live;
static bool counts, was_refused;

static bool refuse(void)
{
    if (!counts || ++requests != refused_one) return false;
    was_refused = true;
    return true;
}

void *__wrap_malloc(size_t size)
{
    void *block = refuse() ? NULL : __real_malloc(size);
    if (block) live++;
    return block;
}

void *__wrap_realloc(void *block, size_t size)
{
    void *moved = refuse() ? NULL : __real_realloc(block, size);
    if (moved && !block) live++;
    return moved;
}

void __wrap_free(void *block)
{
    if (block) live--;
    __real_free(block);
}

enum { MOST = 1 << 13 };

static struct step {
    enum { FRAME, GAP, ASK, ASK_ALL, COMMAND } what;
    uint32_t id;
    size_t length;
    uint8_t bytes[8];
} steps[MOST];

static size_t step_count;

static uint32_t done(hidzgula_station *station, const struct step *step, hidzgula_reply *reply, hidzgula_change *change)
{
    uint32_t answer = HIDZGULA_DONE;
    counts = true;
    switch (step->what) {
    case FRAME:
        answer = hidzgula_take_frame(station, step->id, step->bytes, step->length, reply, change);
        break;
    case GAP:
        answer = hidzgula_take_gap(station, 1, reply, change);
        break;
    case ASK:
        answer = hidzgula_ask(station, 0x1000000001419907, HIDZGULA_PGN_DM2, reply);
        break;
    case ASK_ALL:
        answer = hidzgula_ask_all(station, HIDZGULA_PGN_DM2, reply);
        break;
    case COMMAND:
        answer = hidzgula_command(station, 0x1000000001419907, 100, reply);
        break;
    }
    counts = false;
    return answer;
}

/* a sum over all that a station tells, by which no memory may be taken: a request here would be one too many in the count */
static uint64_t all_told(hidzgula_station *station)
{
    counts = true;
    refused_one = 0;
    size_t before = requests;
    uint64_t told = told_by(station);
    counts = false;
    return requests == before ? told : told + 1;
}

/* a sum over what was told of changes in a run */
static uint64_t changes;

static void add_change(const hidzgula_change *change)
{
    const uint64_t fields[] = { change->name, change->displaced, change->pgn, change->count, change->what, change->address, change->kind,
        change->control, change->again, change->has_displaced, change->lost };
    for (size_t i = 0; i < sizeof fields / sizeof fields[0]; i++) changes = (changes ^ fields[i]) * 0x100000001B3u;
}

static uint32_t keep = UINT32_MAX;

static uint32_t opened_of(hidzgula_station *station)
{
    return hidzgula_open(station, 1, 248, 255, keep);
}

/* what a station tells that did the first calls, and was refused nothing */
static uint64_t told_after(size_t calls)
{
    hidzgula_station station = HIDZGULA_EMPTY;
    hidzgula_reply reply;
    size_t one = refused_one;
    refused_one = 0;
    if (opened_of(&station) != HIDZGULA_DONE) abort();
    for (size_t i = 0; i < calls; i++) done(&station, &steps[i], &reply, NULL);
    uint64_t result = all_told(&station);
    hidzgula_close(&station);
    refused_one = one;
    return result;
}

static uint32_t opened(hidzgula_station *station)
{
    counts = true;
    uint32_t answer = opened_of(station);
    counts = false;
    return answer;
}

/* one run, in which one request is refused; NULL where all is well. `all` is what is told at the end. */
static const char *run(size_t one, uint64_t *all, size_t *at)
{
    hidzgula_station station = HIDZGULA_EMPTY;
    hidzgula_reply reply, filled;
    hidzgula_change change, unchanged;
    requests = live = 0;
    refused_one = one;
    was_refused = false;
    memset(&filled, 0xA5, sizeof filled);
    memset(&unchanged, 0xA5, sizeof unchanged);
    changes = 0xCBF29CE484222325u;
    *at = 0;
    if (opened(&station) != HIDZGULA_DONE) {
        if (!was_refused || station.full || station.at) return "open was refused otherwise, or wrote to the handle";
        if (hidzgula_counts(&station, &(uint64_t){ 0 }, &(uint64_t){ 0 }) != HIDZGULA_NO_STATION) return "open left a station";
        if (opened(&station) != HIDZGULA_DONE) return "open was refused twice";
    } else if (was_refused) {
        return "open was done without memory";
    }
    bool seen = was_refused;
    for (size_t i = 0; i < step_count; i++) {
        reply = filled;
        memcpy(&change, &unchanged, sizeof change);
        uint32_t answer = done(&station, &steps[i], &reply, &change);
        if (was_refused && !seen) {
            seen = true;
            *at = i;
            if (answer != HIDZGULA_OUT_OF_MEMORY) return "a call without memory answers something else";
            if (memcmp(&reply, &filled, sizeof reply) != 0) return "a refused call writes to the reply";
            if (memcmp(&change, &unchanged, sizeof change) != 0) return "a refused call writes to the change";
            if (all_told(&station) != told_after(i)) return "a refused call changes what is told";
            answer = done(&station, &steps[i], &reply, &change);
        }
        if (steps[i].what <= GAP) add_change(&change);
        if (answer == HIDZGULA_OUT_OF_MEMORY) return "memory was refused by nobody";
    }
    refused_one = 0;
    *all = all_told(&station);
    hidzgula_close(&station);
    return live ? "memory was not given back" : NULL;
}

static void read_log(void)
{
    char line[512], digits[17];
    for (size_t frames = 0; fgets(line, sizeof line, stdin) && step_count + 5 < MOST;) {
        struct step step = { FRAME, 0, 0, { 0 } };
        digits[0] = 0;
        if (sscanf(line, "(%*[^)]) %*s %8" SCNx32 "#%16[0-9A-Fa-f]", &step.id, digits) < 1 || step.id >= 1u << 29) continue;
        for (; digits[2 * step.length]; step.length++) sscanf(digits + 2 * step.length, "%2" SCNx8, &step.bytes[step.length]);
        steps[step_count++] = step;
        if (++frames % 200 == 0)
            for (int what = ASK; what <= COMMAND; what++) steps[step_count++].what = what;
        if (frames % 1000 == 0) steps[step_count++].what = GAP;
    }
}

static size_t passed, failed;

/* each request in turn */
static void refuse_each(void)
{
    uint64_t whole = 0, all = 0;
    size_t at = 0;
    const char *wrong = run(0, &whole, &at);
    size_t total = requests;
    uint64_t all_changes = changes;
    if (wrong) printf("without refusal: %s\n", wrong);
    if (wrong || total < 50 || whole != told_after(step_count)) failed++;
    else passed++;
    for (size_t one = 1; one <= total; one++) {
        wrong = run(one, &all, &at);
        if (!wrong && !was_refused) wrong = "the request was not made";
        if (!wrong && all != whole) wrong = "the end differs";
        if (!wrong && changes != all_changes) wrong = "what was told of changes differs";
        if (wrong) printf("request %zu, at call %zu: %s\n", one, at, wrong);
        if (wrong) failed++;
        else passed++;
    }
}

int main(void)
{
    read_log();
    refuse_each();
    keep = 3;
    refuse_each();
    keep = 0;
    refuse_each();
    printf("%zu passed, %zu failed\n", passed, failed);
    return failed != 0;
}
