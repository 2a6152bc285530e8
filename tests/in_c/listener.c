/* A listener: each kind of what it heard with each of its fields, the others 0; sessions between any two addresses, also where claims come to
 * the receiver's address in their midst; what stands under an address that nobody has claimed; which entries are kept; frames in rows; each
 * refusal, by which nothing is written; and each request for memory refused in turn. Writes a line for each that is otherwise, and then the
 * sums.
 *
 * Linked with --wrap for malloc, realloc and free, which the archive calls. */
#include "tries.h"

#include <stdlib.h>

void *__real_malloc(size_t size);
void *__real_realloc(void *block, size_t size);
void __real_free(void *block);
void *__wrap_malloc(size_t size);
void *__wrap_realloc(void *block, size_t size);
void __wrap_free(void *block);

static size_t requests, refused_one, live;

static bool refuse(void) { return ++requests == refused_one; }

void *__wrap_malloc(size_t size)
{
    void *block = refuse() ? NULL : __real_malloc(size);
    if (block) live++;
    return block;
}

void *__wrap_realloc(void *block, size_t size)
{
    void *moved = refuse() ? NULL : __real_realloc(block, size);
    if (moved && !block) live++;
    return moved;
}

void __wrap_free(void *block)
{
    if (block) live--;
    __real_free(block);
}

static hidzgula_listener listener = HIDZGULA_EMPTY;
static const uint32_t all = UINT32_MAX;
static uint64_t now;

static const uint8_t dm[8] = { 0x04, 0xFF, 0xB8, 0x04, 0x03, 0x01, 0xFF, 0xFF };
static const uint8_t rts[8] = { 16, 10, 0, 2, 0xFF, 0xCB, 0xFE, 0 }, bam[8] = { 0x20, 10, 0, 2, 0xFF, 0xCB, 0xFE, 0 };
static const uint8_t first[8] = { 1, 0x04, 0xFF, 0xB8, 0x04, 0x03, 0x01, 0x64 }, last[8] = { 2, 0, 1, 1, 0xFF, 0xFF, 0xFF, 0xFF };

static hidzgula_who named(uint64_t name) { return (hidzgula_who){ .name = name, .has_name = 1 }; }
static hidzgula_who unclaimed(uint8_t address, uint64_t gaps) { return (hidzgula_who){ .gaps = gaps, .address = address }; }

static void same_who(const char *what, const hidzgula_who *got, hidzgula_who wanted)
{
    is(what, got->name, wanted.name);
    is(what, got->gaps, wanted.gaps);
    is(what, got->has_name * 256u + got->address, wanted.has_name * 256u + wanted.address);
}

/* the fields of what was heard, each of which a try names where it is not 0 */
static void told(const char *what, const hidzgula_heard *got, hidzgula_heard wanted)
{
    is(what, got->what, wanted.what);
    same_who(what, &got->who, wanted.who);
    is(what, got->displaced, wanted.displaced);
    is(what, got->has_displaced * 256u + got->lost, wanted.has_displaced * 256u + wanted.lost);
    is(what, got->source * 256u + got->to, wanted.source * 256u + wanted.to);
    is(what, got->kind * 256u + got->why, wanted.kind * 256u + wanted.why);
    is(what, got->pgn, wanted.pgn);
    is(what, (got->control * 256u + got->requester) * 256u + got->again, (wanted.control * 256u + wanted.requester) * 256u + wanted.again);
    is(what, got->count, wanted.count);
    is(what, got->read * 256u + got->of, wanted.read * 256u + wanted.of);
    is(what, (got->number * 256u + got->reason) * 256u + got->by, (wanted.number * 256u + wanted.reason) * 256u + wanted.by);
    is(what, got->broken, wanted.broken);
}

static void takes(const char *what, uint32_t id, const uint8_t *bytes, size_t length, hidzgula_heard wanted)
{
    hidzgula_heard heard;
    memset(&heard, 0xA5, sizeof heard);
    now += 10000;
    is(what, hidzgula_listener_take_at(&listener, now, id, bytes, length, &heard), HIDZGULA_DONE);
    told(what, &heard, wanted);
}

static const hidzgula_heard nothing = { .what = HIDZGULA_NOTHING };

static void claims(const char *what, uint8_t name, uint8_t address, hidzgula_heard wanted)
{
    const uint8_t bytes[8] = { name, 0, 0, 0, 0, 0, 0, 0 };
    takes(what, 0x18EEFF00u + address, bytes, 8, wanted);
}

static void misses(uint32_t count)
{
    hidzgula_heard heard;
    memset(&heard, 0xA5, sizeof heard);
    is("a gap", hidzgula_listener_missed_at(&listener, now, count, &heard), HIDZGULA_DONE);
    told("a gap", &heard, (hidzgula_heard){ .what = HIDZGULA_MISSED, .count = count });
}

static void entries(const char *what, hidzgula_who who, uint8_t kind, uint64_t wanted)
{
    uint64_t count = 999;
    is(what, hidzgula_listener_entries(&listener, &who, kind, &count), HIDZGULA_DONE);
    is(what, count, wanted);
}

static hidzgula_heard listed(hidzgula_who who, uint8_t kind, uint8_t source, uint8_t to)
{
    return (hidzgula_heard){ .what = HIDZGULA_LISTED, .who = who, .kind = kind, .source = source, .to = to };
}

static void claims_and_acknowledgments(void)
{
    static const uint8_t negative[8] = { 1, 0xFF, 0xFF, 0xFF, 248, 0xCC, 0xFE, 0x00 };
    hidzgula_heard ack = { .what = HIDZGULA_ACKNOWLEDGED, .who = named(0xB0), .control = 1, .requester = 248, .pgn = HIDZGULA_PGN_DM3, .source = 9, .to = 255 };
    claims("a claim", 0xA0, 7, (hidzgula_heard){ .what = HIDZGULA_CLAIMED, .who = named(0xA0), .source = 7 });
    claims("the same claim", 0xA0, 7, nothing);
    claims("an address that is held", 0xB0, 7,
        (hidzgula_heard){ .what = HIDZGULA_CLAIMED, .who = named(0xB0), .source = 7, .displaced = 0xA0, .has_displaced = 1, .lost = 1 });
    claims("a move", 0xB0, 9, (hidzgula_heard){ .what = HIDZGULA_CLAIMED, .who = named(0xB0), .source = 9 });
    claims("an address that was left", 0xA0, 7,
        (hidzgula_heard){ .what = HIDZGULA_CLAIMED, .who = named(0xA0), .source = 7, .displaced = 0xB0, .has_displaced = 1 });
    claims("gives up", 0xA0, 254, (hidzgula_heard){ .what = HIDZGULA_GAVE_UP, .who = named(0xA0) });
    claims("and claims again", 0xA0, 7, (hidzgula_heard){ .what = HIDZGULA_CLAIMED, .who = named(0xA0), .source = 7 });
    takes("an acknowledgment to another", 0x18E8FF09, negative, 8, ack);
    ack.again = 1;
    takes("the same again", 0x18E8FF09, negative, 8, ack);
    takes("from an address without owner", 0x18E8FF4D, negative, 8, nothing);
}

static void messages(void)
{
    takes("a DM1", 0x18FECA09, dm, 8, listed(named(0xB0), HIDZGULA_DM1, 9, 255));
    takes("a DM6", 0x18FECF09, dm, 8, listed(named(0xB0), HIDZGULA_DM6, 9, 255));
    takes("a DM2 is announced", 0x1CECFF09, bam, 8, nothing);
    takes("its first packet", 0x1CEBFF09, first, 8, nothing);
    takes("its last packet", 0x1CEBFF09, last, 8, listed(named(0xB0), HIDZGULA_DM2, 9, 255));
    takes("a DM1 of three bytes", 0x18FECA09, dm, 3,
        (hidzgula_heard){ .what = HIDZGULA_LISTED, .who = named(0xB0), .kind = HIDZGULA_DM1, .source = 9, .to = 255, .why = HIDZGULA_WHY_IN_PART });
    takes("a DM1 of one byte", 0x18FECA09, dm, 1,
        (hidzgula_heard){ .what = HIDZGULA_UNREADABLE, .who = named(0xB0), .kind = HIDZGULA_DM1, .source = 9, .to = 255, .why = HIDZGULA_WHY_LENGTH });
    takes("a DM1 of nobody", 0x18FECA4D, dm, 8, listed(unclaimed(77, 0), HIDZGULA_DM1, 77, 255));
    takes("a DM2 of nobody is announced", 0x1CECFF4D, bam, 8, (hidzgula_heard){ .what = HIDZGULA_UNOWNED, .kind = HIDZGULA_DM2, .source = 77 });
}

/* a session of a DM2 from 9 to a tool at 249, with a claim of the tool's address in its midst, by a stronger NAME or a weaker one */
static void sessions(void)
{
    static const uint8_t gives_up[8] = { 255, 2, 0xFF, 0xFF, 0xFF, 0xCB, 0xFE, 0 };
    claims("the tool", 0xC0, 249, (hidzgula_heard){ .what = HIDZGULA_CLAIMED, .who = named(0xC0), .source = 249 });
    for (int turn = 0; turn < 2; turn++) {
        const uint8_t other = turn ? 0x01 : 0xFE;
        takes("a session", 0x1CECF909, rts, 8, nothing);
        takes("its first packet", 0x1CEBF909, first, 8, nothing);
        claims("a claim of the tool's address", other, 249,
            (hidzgula_heard){ .what = HIDZGULA_CLAIMED, .who = named(other), .source = 249, .displaced = 0xC0, .has_displaced = 1, .lost = 1 });
        takes("its last packet", 0x1CEBF909, last, 8, listed(named(0xB0), HIDZGULA_DM2, 9, 249));
        claims("the tool again", 0xC0, 249,
            (hidzgula_heard){ .what = HIDZGULA_CLAIMED, .who = named(0xC0), .source = 249, .displaced = other, .has_displaced = 1, .lost = 1 });
    }
    takes("a session to be given up", 0x1CECF909, rts, 8, nothing);
    takes("its first packet", 0x1CEBF909, first, 8, nothing);
    takes("it is given up", 0x1CEC09F9, gives_up, 8,
        (hidzgula_heard){ .what = HIDZGULA_BROKEN, .who = named(0xB0), .kind = HIDZGULA_DM2, .source = 9, .to = 249, .why = HIDZGULA_BROKEN_ABORT, .reason = 2, .by = 249, .read = 1, .of = 2, .broken = 1 });
    takes("a packet behind that", 0x1CEBF909, last, 8, nothing);
    takes("a session to another", 0x1CECFA09, rts, 8, nothing);
    takes("its first packet", 0x1CEBFA09, first, 8, nothing);
    takes("its last packet", 0x1CEBFA09, last, 8, listed(named(0xB0), HIDZGULA_DM2, 9, 250));
}

/* the lists and rows after all of that */
static void lists(void)
{
    static const uint64_t rows[] = { 0xA0, 0xB0, 0xC0, 0xFE, 0x01 };
    hidzgula_who who, b0 = named(0xB0);
    hidzgula_row_out row;
    hidzgula_sent_out entry;
    hidzgula_code_out code;
    size_t count = 0;
    uint64_t missed = 9, unread = 9;
    static const uint8_t went[] = { 255, 249, 249, 250 };
    is("rows", hidzgula_listener_rows(&listener, &count), HIDZGULA_DONE);
    is("rows", count, 5);
    for (size_t place = 0; place < 5; place++) {
        is("a row", hidzgula_listener_row(&listener, place, &row), HIDZGULA_DONE);
        is("a row", row.name, rows[place]);
    }
    is("no row", hidzgula_listener_row(&listener, 5, &row), HIDZGULA_NO_PLACE);
    is("units", hidzgula_listener_units(&listener, &count), HIDZGULA_DONE);
    is("units", count, 2);
    is("a unit", hidzgula_listener_unit(&listener, 0, &who), HIDZGULA_DONE);
    same_who("a unit", &who, b0);
    is("a unit", hidzgula_listener_unit(&listener, 1, &who), HIDZGULA_DONE);
    same_who("a unit", &who, unclaimed(77, 0));
    is("no unit", hidzgula_listener_unit(&listener, 2, &who), HIDZGULA_NO_PLACE);
    entries("DM1", b0, HIDZGULA_DM1, 2);
    entries("DM6", b0, HIDZGULA_DM6, 1);
    entries("DM2", b0, HIDZGULA_DM2, 4);
    entries("of nobody", unclaimed(77, 0), HIDZGULA_DM1, 1);
    entries("of nobody, of another gap", unclaimed(77, 1), HIDZGULA_DM1, 0);
    entries("of another address", unclaimed(9, 0), HIDZGULA_DM1, 0);
    entries("of another NAME", named(0xA0), HIDZGULA_DM1, 0);
    for (uint64_t place = 0; place < 4; place++) {
        is("an entry", hidzgula_listener_entry(&listener, &b0, HIDZGULA_DM2, place, &entry), HIDZGULA_DONE);
        is("went", entry.to, went[place]);
        is("lamps", entry.lamps * 256u + entry.flashes, 0x04FF);
        is("codes", entry.codes, 2);
        is("a code", hidzgula_listener_code(&listener, &b0, HIDZGULA_DM2, place, 1, &code), HIDZGULA_DONE);
        is("a code", code.spn * 65536u + code.fmi * 256u + code.count, 100u * 65536u + 1u * 256u + 1u);
        is("no code", hidzgula_listener_code(&listener, &b0, HIDZGULA_DM2, place, 2, &code), HIDZGULA_NO_PLACE);
    }
    is("no entry", hidzgula_listener_entry(&listener, &b0, HIDZGULA_DM2, 4, &entry), HIDZGULA_NO_PLACE);
    is("counts", hidzgula_listener_counts(&listener, &missed, &unread), HIDZGULA_DONE);
    is("counts", missed * 256u + unread, 2);
    misses(5);
    takes("a DM1 behind a gap", 0x18FECA09, dm, 8, listed(unclaimed(9, 1), HIDZGULA_DM1, 9, 255));
    is("a row", hidzgula_listener_row(&listener, 1, &row), HIDZGULA_DONE);
    is("has no address", row.has_address * 256u + row.has_ack, 1);
    is("counts", hidzgula_listener_counts(&listener, &missed, &unread), HIDZGULA_DONE);
    is("counts", missed * 256u + unread, 5 * 256u + 2);
}

/* messages that are not as the standard has them: what can be read of each is listed, and what cannot is told */
static void in_part(void)
{
    static const struct {
        uint8_t bytes[18];
        size_t length;
        hidzgula_sent_out wanted;
        uint32_t spn;
    } messages_of[] = {
        { { 0x04, 0xFF, 0xB8, 0x04, 0x03, 0x01, 0xFF, 0xFF }, 8, { .lamps = 0x04, .flashes = 0xFF, .codes = 1 }, 1208 },
        { { 0x04, 0xFF, 0xB8 }, 3, { .lamps = 0x04, .flashes = 0xFF, .in_part = 1, .bytes_behind = 1, .bytes_missing = 5 }, 0 },
        { { 0x04, 0xFF }, 2, { .lamps = 0x04, .flashes = 0xFF, .in_part = 1, .bytes_missing = 6 }, 0 },
        { { 0x04, 0xFF, 0xB8, 0x04, 0x03, 0x81, 0xFF, 0xFF }, 8, { .lamps = 0x04, .flashes = 0xFF, .in_part = 1, .older = 1 }, 0 },
        { { 0x00, 0x7F, 0xB8, 0x04, 0x03, 0x01 }, 6, { .flashes = 0x7F, .in_part = 1, .bytes_missing = 2, .codes = 1 }, 1208 },
        { { 0x40, 0xFF, 0xFF, 0xFF, 0xFF, 0xFF, 0xB8, 0x04, 0x03, 0x01, 0x00, 0x00, 0x00, 0x00, 0x64, 0x00, 0x01, 0x81 }, 18,
            { .lamps = 0x40, .flashes = 0xFF, .in_part = 1, .padding = 1, .zeros = 1, .older = 1, .codes = 1 }, 1208 },
    };
    hidzgula_who who = unclaimed(9, 0);
    hidzgula_heard heard;
    hidzgula_code_out code;
    uint64_t missed = 9, unread = 9, count = sizeof messages_of / sizeof messages_of[0];
    is("opens", hidzgula_listener_open(&listener, all), HIDZGULA_DONE);
    for (uint64_t i = 0; i < count; i++) {
        uint8_t announced[8] = { 0x20, (uint8_t)messages_of[i].length, 0, 3, 0xFF, 0xCA, 0xFE, 0 }, packet[8];
        hidzgula_sent_out entry, wanted = messages_of[i].wanted;
        wanted.to = 255;
        memset(&entry, 0, sizeof entry);
        if (messages_of[i].length <= 8) {
            is("is heard", hidzgula_listener_take_at(&listener, ++now, 0x18FECA09, messages_of[i].bytes, messages_of[i].length, &heard), HIDZGULA_DONE);
        } else {
            hidzgula_listener_take_at(&listener, ++now, 0x1CECFF09, announced, 8, &heard);
            for (size_t at = 0; at < messages_of[i].length; at += 7) {
                memset(packet, 0xFF, 8);
                packet[0] = (uint8_t)(at / 7 + 1);
                memcpy(packet + 1, messages_of[i].bytes + at, messages_of[i].length - at < 7 ? messages_of[i].length - at : 7);
                is("is heard", hidzgula_listener_take_at(&listener, ++now, 0x1CEBFF09, packet, 8, &heard), HIDZGULA_DONE);
            }
        }
        told("in part", &heard,
            (hidzgula_heard){ .what = HIDZGULA_LISTED, .who = who, .kind = HIDZGULA_DM1, .source = 9, .to = 255, .why = wanted.in_part ? HIDZGULA_WHY_IN_PART : 0 });
        is("an entry", hidzgula_listener_entry(&listener, &who, HIDZGULA_DM1, i, &entry), HIDZGULA_DONE);
        is("what is read", ((entry.lamps * 256u + entry.flashes) * 256u + entry.to) * 256u + entry.codes, ((wanted.lamps * 256u + wanted.flashes) * 256u + wanted.to) * 256u + wanted.codes);
        is("in part", entry.in_part * 65536u + entry.padding, wanted.in_part * 65536u + wanted.padding);
        is("in part", entry.zeros * 65536u + entry.older, wanted.zeros * 65536u + wanted.older);
        is("in part", entry.bytes_behind * 256u + entry.bytes_missing, wanted.bytes_behind * 256u + wanted.bytes_missing);
        is("its code", hidzgula_listener_code(&listener, &who, HIDZGULA_DM1, i, 0, &code), wanted.codes ? HIDZGULA_DONE : HIDZGULA_NO_PLACE);
        if (wanted.codes) is("its code", code.spn, messages_of[i].spn);
    }
    entries("all", who, HIDZGULA_DM1, count);
    is("counts", hidzgula_listener_counts(&listener, &missed, &unread), HIDZGULA_DONE);
    is("counts", missed * 256u + unread, count - 1);
    hidzgula_listener_close(&listener);
}

/* frames of one message, each so many microseconds behind the one before, none where that is unknown; what the last one is told as, and how many
 * packets were read by then */
struct paced {
    const char *what;
    struct {
        uint64_t behind;
        uint32_t id;
        uint8_t bytes[8];
    } frames[5];
    uint8_t what_is_told, why, read;
};

#define UNKNOWN UINT64_MAX
#define RTS { 16, 17, 0, 3, 0xFF, 0xCB, 0xFE, 0 }
#define BAM { 32, 17, 0, 3, 0xFF, 0xCB, 0xFE, 0 }
#define CTS(count, next) { 17, count, next, 0xFF, 0xFF, 0xCB, 0xFE, 0 }
#define DT(number) { number, 0x04, 0xFF, 0xB8, 0x04, 0x03, 0x01, 0x64 }
#define OTHER(number) { number, 0x04, 0xFF, 0xB8, 0x04, 0x03, 0x01, 0x65 }

/* a vector on either side of each limit (SAE J1939-21, 5.10.3): T1 750 ms, T2 and T3 1,250 ms, T4 1,050 ms; and sums of two where a clear to send may
 * not have been read */
static const struct paced vectors[] = {
    { "T1 to all", { { 0, 0x1CECFF09, BAM }, { 750000, 0x1CEBFF09, DT(1) }, { 750000, 0x1CEBFF09, DT(2) } }, HIDZGULA_NOTHING, 0, 2 },
    { "beyond T1 to all", { { 0, 0x1CECFF09, BAM }, { 750001, 0x1CEBFF09, DT(1) } }, HIDZGULA_BROKEN, HIDZGULA_BROKEN_LATE, 0 },
    { "beyond T1 to all, later", { { 0, 0x1CECFF09, BAM }, { 1, 0x1CEBFF09, DT(1) }, { 750001, 0x1CEBFF09, DT(2) } }, HIDZGULA_BROKEN, HIDZGULA_BROKEN_LATE, 1 },
    { "no time before", { { UNKNOWN, 0x1CECFF09, BAM }, { 750001, 0x1CEBFF09, DT(1) } }, HIDZGULA_NOTHING, 0, 1 },
    { "no time now", { { 0, 0x1CECFF09, BAM }, { UNKNOWN, 0x1CEBFF09, DT(1) } }, HIDZGULA_NOTHING, 0, 1 },
    { "T3 to a clear to send", { { 0, 0x1CECF909, RTS }, { 1250000, 0x1CEC09F9, CTS(3, 1) } }, HIDZGULA_NOTHING, 0, 0 },
    { "beyond T3", { { 0, 0x1CECF909, RTS }, { 1250001, 0x1CEC09F9, CTS(3, 1) } }, HIDZGULA_BROKEN, HIDZGULA_BROKEN_LATE, 0 },
    { "T3 and T2, none read", { { 0, 0x1CECF909, RTS }, { 2500000, 0x1CEBF909, DT(1) } }, HIDZGULA_NOTHING, 0, 1 },
    { "beyond T3 and T2", { { 0, 0x1CECF909, RTS }, { 2500001, 0x1CEBF909, DT(1) } }, HIDZGULA_BROKEN, HIDZGULA_BROKEN_LATE, 0 },
    { "T2", { { 0, 0x1CECF909, RTS }, { 1, 0x1CEC09F9, CTS(3, 1) }, { 1250000, 0x1CEBF909, DT(1) } }, HIDZGULA_NOTHING, 0, 1 },
    { "beyond T2", { { 0, 0x1CECF909, RTS }, { 1, 0x1CEC09F9, CTS(3, 1) }, { 1250001, 0x1CEBF909, DT(1) } }, HIDZGULA_BROKEN, HIDZGULA_BROKEN_LATE, 0 },
    { "T1 of a session", { { 0, 0x1CECF909, RTS }, { 1, 0x1CEC09F9, CTS(3, 1) }, { 1, 0x1CEBF909, DT(1) }, { 750000, 0x1CEBF909, DT(2) } }, HIDZGULA_NOTHING, 0, 2 },
    { "beyond T1", { { 0, 0x1CECF909, RTS }, { 1, 0x1CEC09F9, CTS(3, 1) }, { 1, 0x1CEBF909, DT(1) }, { 750001, 0x1CEBF909, DT(2) } }, HIDZGULA_BROKEN, HIDZGULA_BROKEN_LATE, 1 },
    { "T4", { { 0, 0x1CECF909, RTS }, { 1, 0x1CEC09F9, CTS(0, 1) }, { 1050000, 0x1CEC09F9, CTS(3, 1) } }, HIDZGULA_NOTHING, 0, 0 },
    { "beyond T4", { { 0, 0x1CECF909, RTS }, { 1, 0x1CEC09F9, CTS(0, 1) }, { 1050001, 0x1CEC09F9, CTS(3, 1) } }, HIDZGULA_BROKEN, HIDZGULA_BROKEN_LATE, 0 },
    { "T4 and T2, none read", { { 0, 0x1CECF909, RTS }, { 1, 0x1CEC09F9, CTS(0, 1) }, { 2300000, 0x1CEBF909, DT(1) } }, HIDZGULA_NOTHING, 0, 1 },
    { "beyond T4 and T2", { { 0, 0x1CECF909, RTS }, { 1, 0x1CEC09F9, CTS(0, 1) }, { 2300001, 0x1CEBF909, DT(1) } }, HIDZGULA_BROKEN, HIDZGULA_BROKEN_LATE, 0 },
    { "again, as it was asked for", { { 0, 0x1CECF909, RTS }, { 1, 0x1CEC09F9, CTS(1, 1) }, { 1, 0x1CEBF909, DT(1) }, { 1, 0x1CEC09F9, CTS(3, 1) }, { 1, 0x1CEBF909, DT(1) } },
        HIDZGULA_NOTHING, 0, 1 },
    { "again, with other bytes", { { 0, 0x1CECF909, RTS }, { 1, 0x1CEC09F9, CTS(1, 1) }, { 1, 0x1CEBF909, DT(1) }, { 1, 0x1CEC09F9, CTS(3, 1) }, { 1, 0x1CEBF909, OTHER(1) } },
        HIDZGULA_BROKEN, HIDZGULA_BROKEN_DIFFERS, 1 },
    { "again, unasked", { { 0, 0x1CECF909, RTS }, { 1, 0x1CEC09F9, CTS(1, 1) }, { 1, 0x1CEBF909, DT(1) }, { 1, 0x1CEC09F9, CTS(2, 2) }, { 1, 0x1CEBF909, DT(1) } },
        HIDZGULA_BROKEN, HIDZGULA_BROKEN_PACKET, 1 },
    { "not the next one", { { 0, 0x1CECFF09, BAM }, { 1, 0x1CEBFF09, DT(2) } }, HIDZGULA_BROKEN, HIDZGULA_BROKEN_PACKET, 0 },
    { "announced anew", { { 0, 0x1CECFF09, BAM }, { 1, 0x1CEBFF09, DT(1) }, { 1, 0x1CECFF09, BAM } }, HIDZGULA_BROKEN, HIDZGULA_BROKEN_ANEW, 1 },
    { "aborted by its source", { { 0, 0x1CECF909, RTS }, { 1, 0x1CECF909, { 255, 3, 0xFF, 0xFF, 0xFF, 0xCB, 0xFE, 0 } } }, HIDZGULA_BROKEN, HIDZGULA_BROKEN_ABORT, 0 },
};

static void paces(void)
{
    for (size_t i = 0; i < sizeof vectors / sizeof vectors[0]; i++) {
        const struct paced *one = &vectors[i];
        hidzgula_heard heard, wanted = { .what = one->what_is_told };
        uint64_t time = 1000;
        is("opens", hidzgula_listener_open(&listener, all), HIDZGULA_DONE);
        claims("its claim", 0xB0, 9, (hidzgula_heard){ .what = HIDZGULA_CLAIMED, .who = named(0xB0), .source = 9 });
        for (size_t j = 0; j < 5 && one->frames[j].id; j++) {
            bool known = one->frames[j].behind != UNKNOWN;
            time += known ? one->frames[j].behind : 0;
            is(one->what, hidzgula_listener_take_at(&listener, known ? time : HIDZGULA_NO_TIME, one->frames[j].id, one->frames[j].bytes, 8, &heard), HIDZGULA_DONE);
            if (j + 1 < 5 && one->frames[j + 1].id) is(one->what, heard.what, HIDZGULA_NOTHING);
        }
        if (one->what_is_told == HIDZGULA_BROKEN) {
            uint8_t last_number = heard.number;
            wanted = (hidzgula_heard){ .what = HIDZGULA_BROKEN, .who = named(0xB0), .kind = HIDZGULA_DM2, .source = 9, .to = (uint8_t)(one->frames[0].id >> 8), .why = one->why, .read = one->read, .of = 3, .broken = 1 };
            if (one->why == HIDZGULA_BROKEN_ABORT) wanted.reason = 3, wanted.by = 9;
            if (one->why == HIDZGULA_BROKEN_PACKET || one->why == HIDZGULA_BROKEN_DIFFERS) wanted.number = last_number;
        }
        told(one->what, &heard, wanted);
        hidzgula_listener_close(&listener);
    }
}

/* a claim, and an abort, that break several messages: how many is told with what changed, and each by its place; in a row it stops there */
static void several_broken(void)
{
    static const uint8_t others[8] = { 0xA0, 0, 0, 0, 0, 0, 0, 0 }, aborts[8] = { 255, 1, 0xFF, 0xFF, 0xFF, 0xCB, 0xFE, 0 };
    static hidzgula_frame frames[] = { { 0x1CECFF09, 8, BAM }, { 0x1CECF909, 8, RTS }, { 0x1CEBF909, 8, DT(1) }, { 0x18EEFF09, 8, { 0xA0 } }, { 0x18FECA09, 8, { 4, 0xFF, 1, 0, 3, 1, 0xFF, 0xFF } } };
    static const hidzgula_logged logged[5] = { { 1, 1 }, { 2, 2 }, { 3, 3 }, { 4, 4 }, { 5, 5 } };
    hidzgula_heard broken = { .what = HIDZGULA_BROKEN, .who = named(0xB0), .kind = HIDZGULA_DM2, .source = 9, .to = 249, .why = HIDZGULA_BROKEN_CLAIM, .read = 1, .of = 3, .broken = 2 };
    hidzgula_heard heard[5], claim = { .what = HIDZGULA_CLAIMED, .who = named(0xA0), .source = 9, .displaced = 0xB0, .has_displaced = 1, .lost = 1, .broken = 2 };
    size_t taken = 99;
    is("closed", hidzgula_listener_broken(&listener, 0, heard), HIDZGULA_NO_LISTENER);
    is("opens", hidzgula_listener_open(&listener, all), HIDZGULA_DONE);
    is("none yet", hidzgula_listener_broken(&listener, 0, heard), HIDZGULA_NO_PLACE);
    claims("its claim", 0xB0, 9, (hidzgula_heard){ .what = HIDZGULA_CLAIMED, .who = named(0xB0), .source = 9 });
    is("up to the claim", hidzgula_listener_take_frames_at(&listener, frames, 5, logged, 5, heard, 5, &taken), HIDZGULA_DONE);
    is("up to the claim", taken, 4);
    told("the claim", &heard[3], claim);
    is("the first", hidzgula_listener_broken(&listener, 0, heard), HIDZGULA_DONE);
    told("the first", heard, broken);
    is("the second", hidzgula_listener_broken(&listener, 1, heard), HIDZGULA_DONE);
    broken.to = 255, broken.read = 0;
    told("the second", heard, broken);
    memset(heard, 0xA5, sizeof heard);
    heard[1] = heard[0];
    is("no third", hidzgula_listener_broken(&listener, 2, heard), HIDZGULA_NO_PLACE);
    is("nothing is written", (unsigned long)memcmp(&heard[0], &heard[1], sizeof heard[0]), 0);
    is("the rest", hidzgula_listener_take_frames_at(&listener, frames + 4, 1, logged, 1, heard, 5, &taken), HIDZGULA_DONE);
    is("the rest", taken, 1);
    is("which broke none", hidzgula_listener_broken(&listener, 0, heard), HIDZGULA_NO_PLACE);
    takes("there", 0x1CECF909, rts, 8, nothing);
    takes("and back", 0x1CEC09F9, rts, 8, nothing);
    broken = (hidzgula_heard){ .what = HIDZGULA_BROKEN, .who = named(0xA0), .kind = HIDZGULA_DM2, .source = 9, .to = 249, .why = HIDZGULA_BROKEN_ABORT, .reason = 1, .by = 9, .of = 2, .broken = 2 };
    takes("both are aborted", 0x1CECF909, aborts, 8, broken);
    is("the second", hidzgula_listener_broken(&listener, 1, heard), HIDZGULA_DONE);
    broken.who = unclaimed(249, 0), broken.source = 249, broken.to = 9;
    told("the second", heard, broken);
    takes("a broadcast", 0x1CECFF4D, bam, 8, (hidzgula_heard){ .what = HIDZGULA_UNOWNED, .kind = HIDZGULA_DM2, .source = 77 });
    takes("announced anew", 0x1CECFF4D, bam, 8, (hidzgula_heard){ .what = HIDZGULA_UNOWNED, .kind = HIDZGULA_DM2, .source = 77, .broken = 1 });
    misses(3);
    is("a gap breaks none", hidzgula_listener_broken(&listener, 0, heard), HIDZGULA_NO_PLACE);
    takes("a packet behind a gap", 0x1CEBFF4D, first, 8, nothing);
    takes("a claim breaks none", 0x18EEFF4D, others, 8, (hidzgula_heard){ .what = HIDZGULA_CLAIMED, .who = named(0xA0), .source = 77 });
    hidzgula_listener_close(&listener);
}

/* of a list of 20 entries the newest are kept */
static void keeps(uint32_t keep)
{
    hidzgula_who who = unclaimed(7, 0);
    hidzgula_sent_out entry;
    hidzgula_code_out code;
    hidzgula_heard heard;
    is("opens", hidzgula_listener_open(&listener, keep), HIDZGULA_DONE);
    for (uint8_t i = 0; i < 20; i++) {
        const uint8_t bytes[8] = { 0x04, 0xFF, i, 0, 3, 1, 0xFF, 0xFF };
        is("a DM1", hidzgula_listener_take_at(&listener, HIDZGULA_NO_TIME, 0x18FECA07, bytes, 8, &heard), HIDZGULA_DONE);
        if (i % 3 == 0) is("another's", hidzgula_listener_take_at(&listener, HIDZGULA_NO_TIME, 0x18FECA08, bytes, 8, &heard), HIDZGULA_DONE);
    }
    entries("all", who, HIDZGULA_DM1, 20);
    for (uint64_t place = 0; place < 20; place++) {
        uint32_t wanted = 20 - place > keep ? HIDZGULA_NOT_KEPT : HIDZGULA_DONE;
        is("an entry", hidzgula_listener_entry(&listener, &who, HIDZGULA_DM1, place, &entry), wanted);
        is("its code", hidzgula_listener_code(&listener, &who, HIDZGULA_DM1, place, 0, &code), wanted);
        if (wanted == HIDZGULA_DONE) is("its SPN", code.spn, place);
    }
    is("no entry", hidzgula_listener_entry(&listener, &who, HIDZGULA_DM1, 20, &entry), HIDZGULA_NO_PLACE);
    hidzgula_listener_close(&listener);
}

/* each call of a handle without a listener is refused, and writes nothing */
static void on_empty(void)
{
    struct {
        hidzgula_heard heard[2];
        hidzgula_row_out row;
        hidzgula_who who;
        hidzgula_sent_out entry;
        hidzgula_code_out code;
        size_t count, taken;
        uint64_t one, other;
    } out, filled;
    static const hidzgula_frame frame = { 0x18FECA09, 8, { 0 } };
    static const hidzgula_logged logged = { 1, 1 };
    hidzgula_who who = named(1);
    memset(&out, 0xA5, sizeof out);
    memcpy(&filled, &out, sizeof out);
    hidzgula_listener_close(&listener);
    is("closed", hidzgula_listener_take_at(&listener, 1, 0, dm, 8, out.heard), HIDZGULA_NO_LISTENER);
    is("closed", hidzgula_listener_take_at(&listener, 1, 1u << 29, dm, 9, out.heard), HIDZGULA_ID_TOO_LARGE);
    is("closed", hidzgula_listener_take_at(&listener, 1, 0, dm, 9, out.heard), HIDZGULA_TOO_LONG);
    is("closed", hidzgula_listener_take_frames_at(&listener, &frame, 1, &logged, 1, out.heard, 1, &out.taken), HIDZGULA_NO_LISTENER);
    is("closed", hidzgula_listener_missed_at(&listener, 1, 1, out.heard), HIDZGULA_NO_LISTENER);
    is("closed", hidzgula_listener_broken(&listener, 0, out.heard), HIDZGULA_NO_LISTENER);
    is("closed", hidzgula_listener_counts(&listener, &out.one, &out.other), HIDZGULA_NO_LISTENER);
    is("closed", hidzgula_listener_rows(&listener, &out.count), HIDZGULA_NO_LISTENER);
    is("closed", hidzgula_listener_row(&listener, 0, &out.row), HIDZGULA_NO_LISTENER);
    is("closed", hidzgula_listener_units(&listener, &out.count), HIDZGULA_NO_LISTENER);
    is("closed", hidzgula_listener_unit(&listener, 0, &out.who), HIDZGULA_NO_LISTENER);
    is("closed", hidzgula_listener_entries(&listener, &who, 1, &out.one), HIDZGULA_NO_LISTENER);
    is("closed", hidzgula_listener_entries(&listener, &who, 3, &out.one), HIDZGULA_NO_KIND);
    is("closed", hidzgula_listener_entry(&listener, &who, 1, 0, &out.entry), HIDZGULA_NO_LISTENER);
    is("closed", hidzgula_listener_entry(&listener, &who, 0, 0, &out.entry), HIDZGULA_NO_KIND);
    is("closed", hidzgula_listener_code(&listener, &who, 1, 0, 0, &out.code), HIDZGULA_NO_LISTENER);
    is("closed", hidzgula_listener_code(&listener, &who, 7, 0, 0, &out.code), HIDZGULA_NO_KIND);
    is("nothing is written", (unsigned long)memcmp(&out, &filled, sizeof out), 0);
}

/* frames in rows: as many as there are times and places, up to the one that is refused */
static void rows(void)
{
    static hidzgula_frame frames[4] = { { 0x18EEFF09, 8, { 0xB0 } }, { 0x18FECA09, 8, { 4, 0xFF, 1, 0, 3, 1, 0xFF, 0xFF } }, { 0x18FECA09, 8, { 4, 0xFF, 2, 0, 3, 1, 0xFF, 0xFF } },
        { 0x18FECA09, 9, { 0 } } };
    static const hidzgula_logged logged[4] = { { 1, 1 }, { 2, 2 }, { HIDZGULA_NO_TIME, 3 }, { 4, 4 } };
    hidzgula_heard heard[4], unwritten;
    size_t taken = 99;
    memset(heard, 0xA5, sizeof heard);
    memset(&unwritten, 0xA5, sizeof unwritten);
    is("opens", hidzgula_listener_open(&listener, all), HIDZGULA_DONE);
    is("opens again", hidzgula_listener_open(&listener, all), HIDZGULA_HAS_LISTENER);
    is("as many as times", hidzgula_listener_take_frames_at(&listener, frames, 4, logged, 1, heard, 4, &taken), HIDZGULA_DONE);
    is("as many as times", taken, 1);
    told("a claim", &heard[0], (hidzgula_heard){ .what = HIDZGULA_CLAIMED, .who = named(0xB0), .source = 9 });
    is("none behind", (unsigned long)memcmp(&heard[1], &unwritten, sizeof unwritten), 0);
    is("as many as places", hidzgula_listener_take_frames_at(&listener, frames + 1, 3, logged + 1, 3, heard, 1, &taken), HIDZGULA_DONE);
    is("as many as places", taken, 1);
    told("a DM1", &heard[0], listed(named(0xB0), HIDZGULA_DM1, 9, 255));
    is("up to the one refused", hidzgula_listener_take_frames_at(&listener, frames + 2, 2, logged + 2, 2, heard, 4, &taken), HIDZGULA_TOO_LONG);
    is("up to the one refused", taken, 1);
    frames[3].id = 1u << 29;
    is("which is told", hidzgula_listener_take_frames_at(&listener, frames + 3, 1, logged, 1, heard, 4, &taken), HIDZGULA_ID_TOO_LARGE);
    is("which is told", taken, 0);
    is("no frames", hidzgula_listener_take_frames_at(&listener, frames, 0, logged, 4, heard, 4, &taken), HIDZGULA_DONE);
    is("no frames", taken, 0);
    entries("the list", named(0xB0), HIDZGULA_DM1, 2);
    hidzgula_listener_close(&listener);
}

/* what a listener tells after a claim, single messages, a broadcast, a session and a gap, each call made again where it is refused memory; how
 * often one was */
static uint64_t told_in_all, refusals;

static void tell(uint32_t id, const uint8_t bytes[8])
{
    hidzgula_heard heard, filled;
    memset(&heard, 0xA5, sizeof heard);
    memcpy(&filled, &heard, sizeof heard);
    uint32_t answer = id ? hidzgula_listener_take_at(&listener, ++now, id, bytes, 8, &heard) : hidzgula_listener_missed_at(&listener, ++now, 1, &heard);
    if (answer == HIDZGULA_OUT_OF_MEMORY) {
        refusals++;
        is("nothing is written", (unsigned long)memcmp(&heard, &filled, sizeof heard), 0);
        now--;
        tell(id, bytes);
        return;
    }
    is("is done", answer, HIDZGULA_DONE);
    told_in_all = told_in_all * 31 + heard.what * 7u + heard.source + heard.who.name;
}

static void hear_all(void)
{
    static const uint8_t b0[8] = { 0xB0, 0, 0, 0, 0, 0, 0, 0 };
    hidzgula_who who;
    uint64_t count = 0;
    told_in_all = refusals = now = 0;
    while (hidzgula_listener_open(&listener, 2) == HIDZGULA_OUT_OF_MEMORY) refusals++;
    tell(0x18EEFF09, b0);
    for (int turn = 0; turn < 4; turn++) {
        tell(0x18FECA09, dm);
        tell(0x18FECA07, dm);
        tell(0x1CECFF09, bam);
        tell(0x1CECF909, rts);
        tell(0x1CEBFF09, first);
        tell(0x1CEBF909, first);
        tell(0x1CEBFF09, last);
        tell(0x1CEBF909, last);
        tell(0, NULL);
        tell(0x18EEFF09, b0);
    }
    for (size_t place = 0; hidzgula_listener_unit(&listener, place, &who) == HIDZGULA_DONE; place++)
        for (uint8_t kind = 1; kind <= 2; kind++) {
            hidzgula_listener_entries(&listener, &who, kind, &count);
            told_in_all = told_in_all * 31 + count * 5 + who.name + who.gaps;
        }
    hidzgula_listener_close(&listener);
    is("all is given back", live, 0);
}

static void refuse_each(void)
{
    requests = refused_one = 0;
    hear_all();
    uint64_t wanted = told_in_all;
    size_t total = requests;
    is("takes memory", total > 20, true);
    is("is refused nothing", refusals, 0);
    for (size_t one = 1; one <= total; one++) {
        requests = 0;
        refused_one = one;
        hear_all();
        is("is refused once", refusals, 1);
        is("the end", told_in_all == wanted, true);
    }
    refused_one = 0;
}

int main(void)
{
    static const uint32_t numbers[] = { 0, 1, 2, 19, 20, UINT32_MAX };
    on_empty();
    is("opens", hidzgula_listener_open(&listener, all), HIDZGULA_DONE);
    claims_and_acknowledgments();
    messages();
    sessions();
    lists();
    hidzgula_listener_close(&listener);
    on_empty();
    for (size_t i = 0; i < sizeof numbers / sizeof numbers[0]; i++) keeps(numbers[i]);
    in_part();
    paces();
    several_broken();
    rows();
    refuse_each();
    return sums();
}
