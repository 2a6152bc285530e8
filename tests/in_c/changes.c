/* What each frame and gap changed: every kind of change with each of its fields, the others 0. Writes a line for each that is otherwise, and then the sums. */
#include "tries.h"

static hidzgula_station station = HIDZGULA_EMPTY;

/* the fields of a change, each of which a try names where it is not 0 */
static void told(const char *what, const hidzgula_change *got, hidzgula_change wanted)
{
    is(what, got->what, wanted.what);
    is(what, got->name, wanted.name);
    is(what, got->displaced, wanted.displaced);
    is(what, got->has_displaced * 256u + got->lost, wanted.has_displaced * 256u + wanted.lost);
    is(what, got->address, wanted.address);
    is(what, got->kind, wanted.kind);
    is(what, got->pgn, wanted.pgn);
    is(what, got->control * 256u + got->again, wanted.control * 256u + wanted.again);
    is(what, got->count, wanted.count);
}

static void takes(const char *what, uint32_t id, const uint8_t *bytes, size_t length, hidzgula_change wanted)
{
    hidzgula_reply reply;
    hidzgula_change change;
    memset(&change, 0xA5, sizeof change);
    is(what, hidzgula_take_frame(&station, id, bytes, length, &reply, &change), HIDZGULA_DONE);
    told(what, &change, wanted);
}

static void claims(const char *what, uint8_t name, uint8_t address, hidzgula_change wanted)
{
    const uint8_t bytes[8] = { name, 0, 0, 0, 0, 0, 0, 0 };
    takes(what, 0x18EEFF00u + address, bytes, 8, wanted);
}

static void misses(const char *what, uint32_t count)
{
    hidzgula_reply reply;
    hidzgula_change change;
    memset(&change, 0xA5, sizeof change);
    is(what, hidzgula_take_gap(&station, count, &reply, &change), HIDZGULA_DONE);
    told(what, &change, (hidzgula_change){ .what = HIDZGULA_MISSED, .count = count });
}

static const hidzgula_change nothing = { .what = HIDZGULA_NOTHING };
static const uint8_t dm[8] = { 0x04, 0xFF, 0xB8, 0x04, 0x03, 0x01, 0xFF, 0xFF };

/* A0 to D0 claim, move and give up; at the end B0 has 9 and C0 has 7 */
static void addresses(void)
{
    claims("a claim", 0xA0, 7, (hidzgula_change){ .what = HIDZGULA_CLAIMED, .name = 0xA0, .address = 7 });
    claims("the same claim", 0xA0, 7, nothing);
    takes("another group", 0x18FEF107, dm, 8, nothing);
    claims("an address that is held", 0xB0, 7, (hidzgula_change){ .what = HIDZGULA_CLAIMED, .name = 0xB0, .address = 7, .displaced = 0xA0, .has_displaced = 1, .lost = 1 });
    claims("an address of nobody", 0xA0, 8, (hidzgula_change){ .what = HIDZGULA_CLAIMED, .name = 0xA0, .address = 8 });
    claims("a move", 0xB0, 9, (hidzgula_change){ .what = HIDZGULA_CLAIMED, .name = 0xB0, .address = 9 });
    claims("an address that was left", 0xC0, 7, (hidzgula_change){ .what = HIDZGULA_CLAIMED, .name = 0xC0, .address = 7, .displaced = 0xB0, .has_displaced = 1 });
    claims("gives up", 0xA0, 254, (hidzgula_change){ .what = HIDZGULA_GAVE_UP, .name = 0xA0 });
    claims("gives up again", 0xA0, 254, nothing);
    claims("gives up, unknown before", 0xD0, 254, (hidzgula_change){ .what = HIDZGULA_GAVE_UP, .name = 0xD0 });
    claims("address 0", 0xA0, 0, (hidzgula_change){ .what = HIDZGULA_CLAIMED, .name = 0xA0, .address = 0 });
    claims("the greatest address", 0xA0, 253, (hidzgula_change){ .what = HIDZGULA_CLAIMED, .name = 0xA0, .address = 253 });
}

static void acknowledgments(void)
{
    static const uint8_t negative[8] = { 1, 0xFF, 0xFF, 0xFF, 248, 0xCC, 0xFE, 0x00 }, positive[8] = { 0, 0xFF, 0xFF, 0xFF, 248, 0xCC, 0xFE, 0x00 };
    static const uint8_t later[8] = { 3, 0xFF, 0xFF, 0xFF, 248, 0xD3, 0xFE, 0x00 }, of_others[8] = { 1, 0xFF, 0xFF, 0xFF, 249, 0xCC, 0xFE, 0x00 };
    const hidzgula_change first = { .what = HIDZGULA_ACKNOWLEDGED, .name = 0xB0, .control = 1, .pgn = HIDZGULA_PGN_DM3 };
    hidzgula_change again = first, other = first;
    again.again = 1;
    takes("an acknowledgment", 0x18E8FF09, negative, 8, first);
    takes("the same again", 0x18E8FF09, negative, 8, again);
    other.control = 0;
    takes("another control", 0x18E8FF09, positive, 8, other);
    other.control = 3;
    other.pgn = HIDZGULA_PGN_DM11;
    takes("of another group", 0x18E8FF09, later, 8, other);
    takes("of no station's", 0x18E8FF09, of_others, 8, nothing);
    takes("from an address without owner", 0x18E8FF4D, negative, 8, nothing);
}

static void messages(void)
{
    static const uint8_t bam[8] = { 0x20, 10, 0, 2, 0xFF, 0xCB, 0xFE, 0x00 }, of_no_dm[8] = { 0x20, 10, 0, 2, 0xFF, 0xF1, 0xFE, 0x00 };
    static const uint8_t first[8] = { 1, 0x04, 0xFF, 0xB8, 0x04, 0x03, 0x01, 0x64 }, last[8] = { 2, 0, 1, 1, 0xFF, 0xFF, 0xFF, 0xFF };
    hidzgula_change listed = { .what = HIDZGULA_LISTED, .name = 0xB0, .kind = HIDZGULA_DM1, .address = 9 };
    takes("a DM1", 0x18FECA09, dm, 8, listed);
    takes("the same DM1", 0x18FECA09, dm, 8, listed);
    listed.kind = HIDZGULA_DM2;
    takes("a DM2", 0x18FECB09, dm, 8, listed);
    takes("a DM2 is announced", 0x1CECFF09, bam, 8, nothing);
    takes("its first packet", 0x1CEBFF09, first, 8, nothing);
    takes("its last packet", 0x1CEBFF09, last, 8, listed);
    listed.kind = HIDZGULA_DM6;
    takes("a DM6", 0x18FECF09, dm, 8, listed);
    takes("a DM1 of no bytes", 0x18FECA09, dm, 0, (hidzgula_change){ .what = HIDZGULA_UNREADABLE, .name = 0xB0, .kind = HIDZGULA_DM1, .address = 9 });
    takes("a DM6 of three bytes", 0x18FECF07, dm, 3, (hidzgula_change){ .what = HIDZGULA_UNREADABLE, .name = 0xC0, .kind = HIDZGULA_DM6, .address = 7 });
    takes("a DM1 of nobody", 0x18FECA4D, dm, 8, (hidzgula_change){ .what = HIDZGULA_UNOWNED, .kind = HIDZGULA_DM1, .address = 77 });
    takes("a DM2 of nobody is announced", 0x1CECFF4D, bam, 8, (hidzgula_change){ .what = HIDZGULA_UNOWNED, .kind = HIDZGULA_DM2, .address = 77 });
    takes("another group of nobody is announced", 0x1CECFF4D, of_no_dm, 8, nothing);
}

static void gaps(void)
{
    misses("a gap", 5);
    misses("the greatest gap", UINT32_MAX);
    misses("a gap of none", 0);
    takes("a DM1 after it", 0x18FECA09, dm, 8, (hidzgula_change){ .what = HIDZGULA_UNOWNED, .kind = HIDZGULA_DM1, .address = 9 });
    claims("a claim after it", 0xB0, 9, (hidzgula_change){ .what = HIDZGULA_CLAIMED, .name = 0xB0, .address = 9 });
}

/* a session of a DM2 from 9 to the station */
static void sessions(void)
{
    static const uint8_t rts[8] = { 16, 10, 0, 2, 0xFF, 0xCB, 0xFE, 0 };
    static const uint8_t first[8] = { 1, 0x04, 0xFF, 0xB8, 0x04, 0x03, 0x01, 0x64 }, last[8] = { 2, 0, 1, 1, 0xFF, 0xFF, 0xFF, 0xFF };
    takes("a session", 0x1CECF809, rts, 8, nothing);
    takes("its first packet", 0x1CEBF809, first, 8, nothing);
    takes("its last packet", 0x1CEBF809, last, 8, (hidzgula_change){ .what = HIDZGULA_LISTED, .name = 0xB0, .kind = HIDZGULA_DM2, .address = 9 });
}

static void nobody_asks(void)
{
    hidzgula_reply reply;
    uint64_t before = 0, after = 0;
    hidzgula_entries(&station, 0xB0, HIDZGULA_DM1, &before);
    is("a frame, and nobody asks", hidzgula_take_frame(&station, 0x18FECA09, dm, 8, &reply, NULL), HIDZGULA_DONE);
    is("is listed", hidzgula_entries(&station, 0xB0, HIDZGULA_DM1, &after), HIDZGULA_DONE);
    is("is listed", after, before + 1);
    is("too many bytes, and nobody asks", hidzgula_take_frame(&station, 0x18FECA09, dm, 9, &reply, NULL), HIDZGULA_TOO_LONG);
    is("a gap, and nobody asks", hidzgula_take_gap(&station, 1, &reply, NULL), HIDZGULA_DONE);
}

int main(void)
{
    is("opens", hidzgula_open(&station, 1, 248, 255, 1), HIDZGULA_DONE);
    addresses();
    acknowledgments();
    messages();
    gaps();
    sessions();
    nobody_asks();
    hidzgula_close(&station);
    return sums();
}
