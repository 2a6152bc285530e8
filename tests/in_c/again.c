/* Makes the calls of simulated units and live stations again that tests/run/random_units made on another machine, which it reads on standard input, each
 * with what it answered there: a struct record each, little endian. At the end of a run, which is such a record too, it writes a line: how many calls
 * answered the same, or the first one that did not. */
#include "hidzgula_station.h"

#include <inttypes.h>
#include <stdio.h>
#include <string.h>

enum { UNITS = 8 };

/* as RECORD of tests/lib/library_in_c.py, and the numbers of CALLS there */
struct record {
    uint32_t call, handle;
    uint64_t given[4];
    uint8_t bytes[8];
    uint32_t answer, length;
    uint64_t told[4];
};

enum { OPEN, CLOSE, HEAR, NEXT, WHEN, SET, HEAL, PEND, LAMPS, HELD, COUNTS, END,
    LIVE_OPEN, LIVE_CLOSE, LIVE_HEAR, LIVE_MISSED, LIVE_NEXT, LIVE_WHEN, LIVE_ASK, LIVE_ASK_ALL, LIVE_CLEAR, LIVE_COMMAND, LIVE_END,
    LIVE_VERDICT, LIVE_HELD, LIVE_COUNTS, LIVE_ROW, LIVE_ENTRIES, LIVE_ENTRY, LIVE_SHARE, LIVE_SHARED_ASK, LIVE_SHARED_HEAR,
    LIVE_SHARED_NEXT, LIVE_SHARED_WHEN, LIVE_SHARED_MESSAGE, LIVE_SHARED_SEND, LIVE_SHARED_SENT };

static hidzgula_unit units[UNITS];
static hidzgula_live live;

static uint32_t open_one(hidzgula_unit *unit, const struct record *it)
{
    hidzgula_unit_settings settings = { it->given[2], it->given[3], it->bytes[0], it->bytes[1] };
    return hidzgula_unit_open(unit, it->given[0], (uint8_t)it->given[1], &settings);
}

static void tell_frame(const hidzgula_frame *frame, uint8_t has, uint64_t *told)
{
    told[0] = has;
    if (has != 1) return;
    told[1] = frame->id;
    told[2] = frame->length;
    memcpy(&told[3], frame->bytes, frame->length);
}

static uint32_t next(hidzgula_unit *unit, uint64_t now, uint64_t *told)
{
    hidzgula_frame frame;
    uint8_t has = 9;
    uint32_t answer = hidzgula_unit_next(unit, now, &frame, &has);
    tell_frame(&frame, has, told);
    return answer;
}

static void tell_address(uint8_t has, uint8_t address, uint64_t *told)
{
    told[0] = has;
    told[1] = has ? address : 0;
}

static uint32_t held(hidzgula_unit *unit, uint64_t *told)
{
    uint8_t has = 9, address = 9;
    uint32_t answer = hidzgula_unit_held(unit, &has, &address);
    tell_address(has, address, told);
    return answer;
}

static uint32_t counts(hidzgula_unit *unit, uint64_t *told)
{
    hidzgula_unit_counts_out counted;
    uint32_t answer = hidzgula_unit_counts(unit, &counted);
    told[0] = counted.put;
    told[1] = counted.written;
    told[2] = counted.withdrawn;
    told[3] = counted.waiting;
    return answer;
}

static uint32_t of_unit(const struct record *it, uint64_t *told)
{
    hidzgula_unit *unit = &units[it->handle % UNITS];
    uint32_t spn = (uint32_t)it->given[0];
    uint8_t first = (uint8_t)it->given[0], second = (uint8_t)it->given[1];
    switch (it->call) {
    case OPEN: return open_one(unit, it);
    case CLOSE: hidzgula_unit_close(unit); return HIDZGULA_DONE;
    case HEAR: return hidzgula_unit_hear(unit, spn, it->bytes, it->length, it->given[1]);
    case NEXT: return next(unit, it->given[0], told);
    case WHEN: return hidzgula_unit_when(unit, it->given[0], told);
    case SET: return hidzgula_unit_set(unit, spn, second);
    case HEAL: return hidzgula_unit_heal(unit, spn, second);
    case PEND: return hidzgula_unit_pend(unit, spn, second);
    case LAMPS: return hidzgula_unit_lamps(unit, first, second);
    case HELD: return held(unit, told);
    case COUNTS: return counts(unit, told);
    default: return UINT32_MAX;
    }
}

/* what a live station is told, and what goes */
static uint32_t live_on_bus(const struct record *it, uint64_t *told)
{
    hidzgula_live_settings settings = { it->given[2], it->given[3], it->bytes[0], it->bytes[1] };
    hidzgula_change change;
    hidzgula_frame frame;
    uint8_t has = 9;
    uint32_t first = (uint32_t)it->given[0], answer;
    switch (it->call) {
    case LIVE_OPEN: return hidzgula_live_open(&live, it->given[0], (uint8_t)it->given[1], &settings);
    case LIVE_CLOSE: hidzgula_live_close(&live); return HIDZGULA_DONE;
    case LIVE_HEAR: answer = hidzgula_live_hear(&live, first, it->bytes, it->length, it->given[1], &change); break;
    case LIVE_MISSED: answer = hidzgula_live_missed(&live, first, it->given[1], &change); break;
    case LIVE_WHEN: return hidzgula_live_when(&live, it->given[0], told);
    case LIVE_NEXT:
    case LIVE_SHARED_NEXT:
        answer = (it->call == LIVE_NEXT ? hidzgula_live_next : hidzgula_live_shared_next)(&live, it->given[0], &frame, &has);
        tell_frame(&frame, has, told);
        return answer;
    default: return UINT32_MAX;
    }
    if (answer == HIDZGULA_DONE) memcpy(told, &change, sizeof change);
    return answer;
}

/* its orders, and what it lists */
static uint32_t live_order(const struct record *it, uint64_t *told)
{
    uint32_t first = (uint32_t)it->given[0], second = (uint32_t)it->given[1], answer;
    hidzgula_verdict verdict;
    hidzgula_row_out row;
    hidzgula_entry_out entry;
    uint8_t has = 9, address = 9;
    switch (it->call) {
    case LIVE_ASK: return hidzgula_live_ask(&live, it->given[0], second);
    case LIVE_ASK_ALL: return hidzgula_live_ask_all(&live, first);
    case LIVE_CLEAR: return hidzgula_live_clear(&live, it->given[0], second);
    case LIVE_COMMAND: return hidzgula_live_command(&live, it->given[0], (uint8_t)second);
    case LIVE_END: return hidzgula_live_end(&live, it->given[0]);
    case LIVE_VERDICT:
        answer = hidzgula_live_verdict(&live, &verdict);
        memcpy(told, &verdict, sizeof verdict);
        return answer;
    case LIVE_HELD:
        answer = hidzgula_live_held(&live, &has, &address);
        tell_address(has, address, told);
        return answer;
    case LIVE_COUNTS: return hidzgula_live_counts(&live, &told[0], &told[1]);
    case LIVE_ROW:
        answer = hidzgula_live_row(&live, it->given[0], &row);
        if (answer == HIDZGULA_DONE) memcpy(told, &row, sizeof row);
        return answer;
    case LIVE_ENTRIES: return hidzgula_live_entries(&live, it->given[0], (uint8_t)second, told);
    case LIVE_ENTRY:
        answer = hidzgula_live_entry(&live, it->given[0], (uint8_t)second, it->given[2], &entry);
        told[0] = entry.lamps;
        told[1] = entry.flashes;
        told[2] = entry.codes;
        return answer;
    default: return live_on_bus(it, told);
    }
}

/* a message whose bytes count on from the first one */
static uint32_t live_send(const struct record *it)
{
    static uint8_t bytes[2048];
    size_t size = (size_t)it->given[2];
    for (size_t at = 0; at < size && at < sizeof bytes; at++) bytes[at] = (uint8_t)(it->given[3] + at);
    return hidzgula_live_shared_send(&live, (uint8_t)it->given[0], (uint32_t)it->given[1], bytes, size);
}

/* groups that are shared with it */
static uint32_t live_shared(const struct record *it, uint64_t *told)
{
    uint32_t first = (uint32_t)it->given[0], answer;
    uint8_t withheld = 9, whole = 9;
    static hidzgula_message message;
    switch (it->call) {
    case LIVE_SHARE: return hidzgula_live_share(&live, first);
    case LIVE_SHARED_ASK: return hidzgula_live_shared_ask(&live, (uint8_t)first, (uint32_t)it->given[1]);
    case LIVE_SHARED_HEAR:
        answer = hidzgula_live_shared_hear(&live, first, it->bytes, it->length, &withheld, &whole);
        told[0] = withheld;
        told[1] = whole;
        return answer;
    case LIVE_SHARED_SEND: return live_send(it);
    case LIVE_SHARED_SENT:
        answer = hidzgula_live_shared_sent(&live, &withheld, &whole);
        told[0] = withheld;
        told[1] = whole;
        return answer;
    case LIVE_SHARED_WHEN: return hidzgula_live_shared_when(&live, it->given[0], told);
    case LIVE_SHARED_MESSAGE:
        answer = hidzgula_live_shared_message(&live, &message);
        told[0] = message.name;
        told[1] = (uint64_t)message.pgn << 32 | (uint64_t)message.size << 16 | (uint64_t)message.source << 8 | message.has_name;
        for (int at = 0; at < message.size; at++) told[2] += message.bytes[at];
        told[3] = message.size ? message.bytes[message.size - 1] : 0;
        return answer;
    default: return live_order(it, told);
    }
}

int main(void)
{
    struct record it;
    unsigned long calls = 0;
    bool differs = false;
    while (fread(&it, sizeof it, 1, stdin) == 1) {
        uint64_t told[4] = { 0 };
        uint32_t answer = it.call == END ? 0 : it.call < END ? of_unit(&it, told) : live_shared(&it, told);
        if (it.call == END) {
            if (!differs) printf("%lu calls\n", calls);
            fflush(stdout);
            calls = 0;
            differs = false;
        } else if (!differs && (answer != it.answer || memcmp(told, it.told, sizeof told))) {
            differs = true;
            printf("behind %lu calls one of kind %" PRIu32 " to handle %" PRIu32 " answers %" PRIu32 " and tells", calls, it.call, it.handle, answer);
            for (int i = 0; i < 4; i++) printf(" %" PRIx64 "%s", told[i], i < 3 ? "" : "\n");
        } else {
            calls++;
        }
    }
    return 0;
}
