/* A live station: what a C program may do wrong with it; and against a simulated unit in the same process, joined by a loop that hands in the time,
 * what it writes, which verdict each order has, and what is listed then. Writes a line for each try that is otherwise, and then the sums. */
#include "tries.h"

static hidzgula_live live = HIDZGULA_EMPTY;
static hidzgula_unit unit = HIDZGULA_EMPTY;
static const uint8_t bytes[9] = { 0xA0, 0, 0, 0, 0, 0, 0, 0, 0 };
static uint64_t now;

enum { NAME = 0x1419907, UNKNOWN = 0xA0, SECOND = 1000000, OWN = 249, VIN = 65260 };
static const uint64_t own_name = 0x10000000000000FA;

/* everything that a call can write, filled with bytes that no call writes */
static struct written {
    hidzgula_change change;
    hidzgula_frame frame;
    hidzgula_verdict verdict;
    hidzgula_row_out row;
    hidzgula_entry_out entry;
    hidzgula_code_out code;
    hidzgula_message message;
    size_t count;
    uint64_t at, entries, missed, unread;
    uint8_t has, address, withheld, whole, what, reason;
} out, before;

static void fill(void)
{
    memset(&out, 0xA5, sizeof out);
    memcpy(&before, &out, sizeof out);
}

static void nothing_written(const char *what) { is(what, (unsigned long)memcmp(&out, &before, sizeof out), 0); }

/* all calls on a station that is empty */
static void on_empty(const char *when)
{
    fill();
    is(when, hidzgula_live_hear(&live, 0x18EEFF00, bytes, 8, now, &out.change), HIDZGULA_NO_STATION);
    is(when, hidzgula_live_missed(&live, 1, now, &out.change), HIDZGULA_NO_STATION);
    is(when, hidzgula_live_next(&live, now, &out.frame, &out.has), HIDZGULA_NO_STATION);
    is(when, hidzgula_live_when(&live, now, &out.at), HIDZGULA_NO_STATION);
    is(when, hidzgula_live_ask(&live, NAME, HIDZGULA_PGN_DM1), HIDZGULA_NO_STATION);
    is(when, hidzgula_live_ask_all(&live, HIDZGULA_PGN_DM1), HIDZGULA_NO_STATION);
    is(when, hidzgula_live_clear(&live, NAME, HIDZGULA_PGN_DM3), HIDZGULA_NO_STATION);
    is(when, hidzgula_live_command(&live, NAME, 254), HIDZGULA_NO_STATION);
    is(when, hidzgula_live_end(&live, now), HIDZGULA_NO_STATION);
    is(when, hidzgula_live_verdict(&live, &out.verdict), HIDZGULA_NO_STATION);
    is(when, hidzgula_live_held(&live, &out.has, &out.address), HIDZGULA_NO_STATION);
    is(when, hidzgula_live_counts(&live, &out.missed, &out.unread), HIDZGULA_NO_STATION);
    is(when, hidzgula_live_rows(&live, &out.count), HIDZGULA_NO_STATION);
    is(when, hidzgula_live_row(&live, 0, &out.row), HIDZGULA_NO_STATION);
    is(when, hidzgula_live_entries(&live, NAME, HIDZGULA_DM1, &out.entries), HIDZGULA_NO_STATION);
    is(when, hidzgula_live_entry(&live, NAME, HIDZGULA_DM2, 0, &out.entry), HIDZGULA_NO_STATION);
    is(when, hidzgula_live_code(&live, NAME, HIDZGULA_DM6, 0, 0, &out.code), HIDZGULA_NO_STATION);
    is(when, hidzgula_live_share(&live, VIN), HIDZGULA_NO_STATION);
    is(when, hidzgula_live_shared_ask(&live, 0, VIN), HIDZGULA_NO_STATION);
    is(when, hidzgula_live_shared_hear(&live, 0x18EEFF00, bytes, 8, &out.withheld, &out.whole), HIDZGULA_NO_STATION);
    is(when, hidzgula_live_shared_next(&live, now, &out.frame, &out.has), HIDZGULA_NO_STATION);
    is(when, hidzgula_live_shared_when(&live, now, &out.at), HIDZGULA_NO_STATION);
    is(when, hidzgula_live_shared_message(&live, &out.message), HIDZGULA_NO_STATION);
    is(when, hidzgula_live_shared_send(&live, 7, VIN, bytes, 9), HIDZGULA_NO_STATION);
    is(when, hidzgula_live_shared_sent(&live, &out.what, &out.reason), HIDZGULA_NO_STATION);
    is(when, hidzgula_live_row_of(&live, NAME, &out.row), HIDZGULA_NO_STATION);
    /* what is wrong with the arguments is told first */
    is(when, hidzgula_live_share(&live, 1u << 24), HIDZGULA_PGN_TOO_LARGE);
    is(when, hidzgula_live_shared_ask(&live, 0, UINT32_MAX), HIDZGULA_PGN_TOO_LARGE);
    is(when, hidzgula_live_shared_send(&live, 254, 1u << 24, bytes, 9), HIDZGULA_PGN_TOO_LARGE);
    is(when, hidzgula_live_shared_hear(&live, 1u << 29, bytes, 9, &out.withheld, &out.whole), HIDZGULA_ID_TOO_LARGE);
    is(when, hidzgula_live_shared_hear(&live, 0, bytes, 9, &out.withheld, &out.whole), HIDZGULA_TOO_LONG);
    is(when, hidzgula_live_hear(&live, 1u << 29, bytes, 9, now, &out.change), HIDZGULA_ID_TOO_LARGE);
    is(when, hidzgula_live_hear(&live, 0, bytes, 9, now, &out.change), HIDZGULA_TOO_LONG);
    is(when, hidzgula_live_ask(&live, NAME, HIDZGULA_PGN_DM3), HIDZGULA_NO_GROUP);
    is(when, hidzgula_live_entries(&live, NAME, 3, &out.entries), HIDZGULA_NO_KIND);
    nothing_written(when);
    hidzgula_live_close(&live);
    hidzgula_live_close(&live);
}

static void bad_settings(void)
{
    static const hidzgula_live_settings bad[] = { { 9999, 250000, 1, 255 }, { 200001, 250000, 1, 255 }, { UINT64_MAX, 0, 1, 1 },
        { 50000, 1000001, 1, 255 }, { 50000, UINT64_MAX, 1, 1 }, { 50000, 250000, 1, 0 } };
    static const hidzgula_live_settings usual = HIDZGULA_USUAL_LIVE_SETTINGS;
    for (size_t i = 0; i < sizeof bad / sizeof bad[0]; i++) is("a bad setting", hidzgula_live_open(&live, own_name, OWN, &bad[i]), HIDZGULA_BAD_SETTING);
    is("address 254", hidzgula_live_open(&live, own_name, 254, &usual), HIDZGULA_BAD_SETTING);
    is("address 255", hidzgula_live_open(&live, own_name, 255, &usual), HIDZGULA_BAD_SETTING);
}

static void opened(uint8_t grant)
{
    const hidzgula_live_settings settings = { 50000, 250000, 16, grant };
    is("open", hidzgula_live_open(&live, own_name, OWN, &settings), HIDZGULA_DONE);
}

static void refused_by_arguments(void)
{
    fill();
    bad_settings();
    is("opened twice", hidzgula_live_open(&live, own_name, 0, &(hidzgula_live_settings)HIDZGULA_USUAL_LIVE_SETTINGS), HIDZGULA_HAS_STATION);
    is("identifier 2^29", hidzgula_live_hear(&live, 1u << 29, bytes, 8, now, &out.change), HIDZGULA_ID_TOO_LARGE);
    is("nine bytes", hidzgula_live_hear(&live, (1u << 29) - 1, bytes, 9, now, &out.change), HIDZGULA_TOO_LONG);
    static const uint32_t none[] = { 0, HIDZGULA_PGN_DM3, HIDZGULA_PGN_DM11, 65260, 65240, 1u << 24, UINT32_MAX };
    for (size_t i = 0; i < sizeof none / sizeof none[0]; i++) {
        is("a group that is not asked for", hidzgula_live_ask(&live, NAME, none[i]), HIDZGULA_NO_GROUP);
        is("nor of all", hidzgula_live_ask_all(&live, none[i]), HIDZGULA_NO_GROUP);
        if (none[i] != HIDZGULA_PGN_DM3 && none[i] != HIDZGULA_PGN_DM11)
            is("nor clears", hidzgula_live_clear(&live, NAME, none[i]), HIDZGULA_NO_GROUP);
    }
    is("DM1 clears nothing", hidzgula_live_clear(&live, NAME, HIDZGULA_PGN_DM1), HIDZGULA_NO_GROUP);
    is("to address 254", hidzgula_live_command(&live, NAME, 254), HIDZGULA_NOT_AN_ADDRESS);
    is("to address 255", hidzgula_live_command(&live, NAME, 255), HIDZGULA_NOT_AN_ADDRESS);
    is("row 0", hidzgula_live_row(&live, 0, &out.row), HIDZGULA_NO_PLACE);
    is("entry 0", hidzgula_live_entry(&live, NAME, HIDZGULA_DM1, 0, &out.entry), HIDZGULA_NO_PLACE);
    is("code 0", hidzgula_live_code(&live, NAME, HIDZGULA_DM1, 0, 0, &out.code), HIDZGULA_NO_PLACE);
    static const uint32_t diagnostic[] = { 59392, 59904, 60160, 60416, 60928, 65226, 65227, 65228, 65231, 65235, 65240 };
    for (size_t i = 0; i < sizeof diagnostic / sizeof diagnostic[0]; i++)
        is("a group of the station's", hidzgula_live_share(&live, diagnostic[i]), HIDZGULA_NO_GROUP);
    is("no message", hidzgula_live_shared_message(&live, &out.message), HIDZGULA_NO_PLACE);
    is("a group that is not shared", hidzgula_live_shared_ask(&live, 0, VIN), HIDZGULA_NO_GROUP);
    is("nor sent", hidzgula_live_shared_send(&live, 0, VIN, bytes, 9), HIDZGULA_NO_GROUP);
    is("no row of that NAME", hidzgula_live_row_of(&live, NAME, &out.row), HIDZGULA_NO_PLACE);
    is("kind 0", hidzgula_live_entry(&live, NAME, 0, 0, &out.entry), HIDZGULA_NO_KIND);
    is("kind 255", hidzgula_live_code(&live, NAME, 255, 0, 0, &out.code), HIDZGULA_NO_KIND);
    nothing_written("what was refused writes nothing");
}

static void told(const char *what, unsigned wanted)
{
    fill();
    is(what, hidzgula_live_verdict(&live, &out.verdict), HIDZGULA_DONE);
    is(what, out.verdict.what, wanted);
}

/* ---- a bus in this process: each hears all that is written, its own frames too */

static char written[1 << 16]; /* what was written since it was looked at, as 18EEFFF9#.. in lines */
static uint32_t lost_id; /* one frame of this identifier is lost */
static bool unit_is_deaf;

static bool is_sharing;
static unsigned messages;

static void heard_by_station(const hidzgula_frame *frame)
{
    uint8_t withheld = 0, whole = 0;
    if (is_sharing) {
        is("shared groups hear", hidzgula_live_shared_hear(&live, frame->id, frame->bytes, frame->length, &withheld, &whole), HIDZGULA_DONE);
        messages += whole;
    }
    if (withheld) return;
    is("the station hears", hidzgula_live_hear(&live, frame->id, frame->bytes, frame->length, now, &out.change), HIDZGULA_DONE);
}

/* a unit at 7 that tells its VIN in a session, and its frames that are to go */
static const char vin[] = "HIDZGULA1VIN00001";
static hidzgula_frame to_go[16];
static unsigned going;
static bool has_vin_unit;

static void goes(uint32_t id, uint8_t a, uint8_t b, uint8_t c, uint8_t d, uint8_t e, uint8_t f, uint8_t g, uint8_t h)
{
    to_go[going++ % 16] = (hidzgula_frame) { id, 8, { a, b, c, d, e, f, g, h } };
}

static void heard_by_vin_unit(const hidzgula_frame *frame)
{
    if (frame->id == 0x18EA07F9 && frame->bytes[0] == 0xEC && frame->bytes[1] == 0xFE) goes(0x1CECF907, 0x10, 17, 0, 3, 255, 0xEC, 0xFE, 0);
    if (frame->id != 0x1CEC07F9 || frame->bytes[0] != 0x11) return;
    for (unsigned n = frame->bytes[2]; n < frame->bytes[2] + frame->bytes[1] * 1u; n++) {
        uint8_t p[7];
        for (unsigned i = 0; i < 7; i++) p[i] = 7 * (n - 1) + i < 17 ? (uint8_t)vin[7 * (n - 1) + i] : 0xFF;
        goes(0x1CEBF907, (uint8_t)n, p[0], p[1], p[2], p[3], p[4], p[5], p[6]);
    }
}

/* a unit at 7 that takes messages: it grants two packets at once, asks for one that is missing once, and acknowledges the end */
static uint8_t taken[1785];
static unsigned taken_size, taken_next, granted_to;
static bool has_receiver, holds_open;

static void grants(void)
{
    unsigned all = (taken_size + 6) / 7, last = taken_next + 1 < all ? taken_next + 1 : all;
    if (taken_next > all) {
        goes(0x1CECF907, 0x13, (uint8_t)taken_size, (uint8_t)(taken_size >> 8), (uint8_t)all, 255, VIN & 0xFF, VIN >> 8, 0);
        return;
    }
    granted_to = last;
    goes(0x1CECF907, 0x11, (uint8_t)(last - taken_next + 1), (uint8_t)taken_next, 255, 255, VIN & 0xFF, VIN >> 8, 0);
}

static void heard_by_receiver(const hidzgula_frame *frame)
{
    if (frame->id == 0x1CEC07F9 && frame->bytes[0] == 0x10) {
        taken_size = frame->bytes[1] + 256u * frame->bytes[2];
        taken_next = 1;
        if (holds_open) goes(0x1CECF907, 0x11, 0, 255, 255, 255, VIN & 0xFF, VIN >> 8, 0);
        else grants();
    }
    if (frame->id != 0x1CEB07F9) return;
    if (frame->bytes[0] == taken_next) {
        for (unsigned i = 0; i < 7 && 7 * (taken_next - 1) + i < sizeof taken; i++) taken[7 * (taken_next - 1) + i] = frame->bytes[1 + i];
        taken_next++;
    }
    if (frame->bytes[0] == granted_to) grants();
}

static void carry(const hidzgula_frame *frame)
{
    size_t at = strlen(written);
    at += (size_t)snprintf(written + at, sizeof written - at, "%08X#", frame->id);
    for (int i = 0; i < frame->length; i++) at += (size_t)snprintf(written + at, sizeof written - at, "%02X", frame->bytes[i]);
    snprintf(written + at, sizeof written - at, "\n");
    if (frame->id == lost_id) {
        lost_id = 0;
        return;
    }
    heard_by_station(frame);
    if (has_vin_unit) heard_by_vin_unit(frame);
    if (has_receiver) heard_by_receiver(frame);
    if (unit.at && !unit_is_deaf) is("the unit hears", hidzgula_unit_hear(&unit, frame->id, frame->bytes, frame->length, now), HIDZGULA_DONE);
}

/* all that goes up to a time */
static void run(uint64_t until)
{
    for (;;) {
        hidzgula_frame frame;
        uint8_t has = 0;
        uint64_t at = UINT64_MAX, other = UINT64_MAX;
        while (hidzgula_live_next(&live, now, &frame, &has) == HIDZGULA_DONE && has) carry(&frame);
        while (hidzgula_live_shared_next(&live, now, &frame, &has) == HIDZGULA_DONE && has) carry(&frame);
        for (unsigned i = 0; i < going; i++) carry(&to_go[i % 16]);
        going = 0;
        while (unit.at && hidzgula_unit_next(&unit, now, &frame, &has) == HIDZGULA_DONE && has) carry(&frame);
        is("when", hidzgula_live_when(&live, now, &at), HIDZGULA_DONE);
        if (unit.at) hidzgula_unit_when(&unit, now, &other);
        if (other < at) at = other;
        is("when", hidzgula_live_shared_when(&live, now, &other), HIDZGULA_DONE);
        if (other < at) at = other;
        if (at >= until) break;
        now = at;
    }
    now = until;
}

static void seconds(unsigned count) { run(now + (uint64_t)count * SECOND); }

static bool went(const char *text) { return strstr(written, text) != NULL; }

/* the unit of this bus: NAME at 0, with so many codes that were active once */
static void unit_with(unsigned codes, uint8_t guarded)
{
    const hidzgula_unit_settings settings = { 50000, 250000, 0, guarded };
    is("a unit", hidzgula_unit_open(&unit, NAME, 0, &settings), HIDZGULA_DONE);
    for (unsigned i = 0; i < codes; i++) {
        is("a fault", hidzgula_unit_set(&unit, 100 + i, 3), HIDZGULA_DONE);
        is("is healed", hidzgula_unit_heal(&unit, 100 + i, 3), HIDZGULA_DONE);
    }
}

static void begun(uint8_t grant, unsigned codes, uint8_t guarded)
{
    unit_with(codes, guarded);
    opened(grant);
    written[0] = 0;
    seconds(2);
}

static void ended(void)
{
    hidzgula_live_close(&live);
    hidzgula_unit_close(&unit);
    unit_is_deaf = false;
}

/* the newest message of a kind of the unit has so many codes */
static void newest_has(const char *what, uint8_t kind, unsigned long codes)
{
    is(what, hidzgula_live_entries(&live, NAME, kind, &out.entries), HIDZGULA_DONE);
    is(what, hidzgula_live_entry(&live, NAME, kind, out.entries - 1, &out.entry), HIDZGULA_DONE);
    is(what, out.entry.codes, codes);
}

/* it claims, settles, asks all for their claims, and knows who is there */
static void claims(void)
{
    begun(255, 0, 0);
    is("its claim goes first", (unsigned long)strncmp(written, "18EEFFF9#FA00000000000010\n", 26), 0);
    is("it asks for claims", went("18EAFFF9#00EE00\n"), 1);
    is("it holds", hidzgula_live_held(&live, &out.has, &out.address), HIDZGULA_DONE);
    is("its address", out.has * 256u + out.address, 256 + OWN);
    is("rows", hidzgula_live_rows(&live, &out.count), HIDZGULA_DONE);
    is("it lists no row of its own", out.count, 1);
    is("row 0", hidzgula_live_row(&live, 0, &out.row), HIDZGULA_DONE);
    is("its NAME", out.row.name, NAME);
    is("its address", out.row.has_address * 256u + out.row.address, 256);
    told("no order", HIDZGULA_NO_ORDER);
    ended();
}

/* asked for its DM2 of 40 codes it opens a session, whose packets the station grants */
static void asks(uint8_t grant)
{
    begun(grant, 40, 0);
    is("asks", hidzgula_live_ask(&live, NAME, HIDZGULA_PGN_DM2), HIDZGULA_DONE);
    told("it is open", HIDZGULA_OPEN);
    is("its unit", out.verdict.name, NAME);
    is("its group", out.verdict.pgn, HIDZGULA_PGN_DM2);
    is("asks beside it", hidzgula_live_ask(&live, NAME, HIDZGULA_PGN_DM1), HIDZGULA_ORDER_OPEN);
    is("asks all beside it", hidzgula_live_ask_all(&live, HIDZGULA_PGN_DM1), HIDZGULA_ORDER_OPEN);
    is("clears beside it", hidzgula_live_clear(&live, NAME, HIDZGULA_PGN_DM3), HIDZGULA_ORDER_OPEN);
    is("commands beside it", hidzgula_live_command(&live, NAME, 255), HIDZGULA_ORDER_OPEN);
    seconds(5);
    is("its request", went("18EA00F9#CBFE00\n"), 1);
    is("a request to send of 162 bytes in 24 packets", went("1CECF900#10A20018"), 1);
    is("the last packet", went("1CEBF900#18"), 1);
    told("it is answered", HIDZGULA_ANSWERED);
    is("by one try", out.verdict.tries, 1);
    is("of one unit", out.verdict.has_name, 1);
    is("at its address", out.verdict.has_address * 256u + out.verdict.address, 256);
    is("a while ago", out.verdict.has_after, 1);
    is("nothing is left of it", out.verdict.left, 0);
    newest_has("40 codes", HIDZGULA_DM2, 40);
    is("the last code", hidzgula_live_code(&live, NAME, HIDZGULA_DM2, out.entries - 1, 39, &out.code), HIDZGULA_DONE);
    is("its SPN", out.code.spn, 139);
    is("code 40", hidzgula_live_code(&live, NAME, HIDZGULA_DM2, out.entries - 1, 40, &out.code), HIDZGULA_NO_PLACE);
    is("asks all for DM1", hidzgula_live_ask_all(&live, HIDZGULA_PGN_DM1), HIDZGULA_DONE);
    seconds(3);
    told("it is answered too", HIDZGULA_ANSWERED);
    is("for no unit alone", out.verdict.has_name, 0);
    is("to no address alone", out.verdict.has_address, 0);
    ended();
}

/* a clear is acknowledged, and what is left is asked: nothing */
static void clears(void)
{
    begun(16, 40, 0);
    is("clears", hidzgula_live_clear(&live, NAME, HIDZGULA_PGN_DM3), HIDZGULA_DONE);
    seconds(5);
    is("its request", went("18EA00F9#CCFE00\n"), 1);
    told("it is done", HIDZGULA_POSITIVE);
    is("of the group", out.verdict.pgn, HIDZGULA_PGN_DM3);
    is("what is left is told", out.verdict.left, HIDZGULA_ANSWERED);
    newest_has("no code is left", HIDZGULA_DM2, 0);
    is("a fault", hidzgula_unit_set(&unit, 110, 0), HIDZGULA_DONE);
    is("clears", hidzgula_live_clear(&live, NAME, HIDZGULA_PGN_DM11), HIDZGULA_DONE);
    seconds(5);
    told("that is done too", HIDZGULA_POSITIVE);
    is("and what is left", out.verdict.left, HIDZGULA_ANSWERED);
    newest_has("no code is left", HIDZGULA_DM1, 0);
    ended();
}

/* a guarded unit refuses */
static void is_refused(void)
{
    begun(16, 1, 1);
    is("clears", hidzgula_live_clear(&live, NAME, HIDZGULA_PGN_DM11), HIDZGULA_DONE);
    seconds(5);
    told("it is refused", HIDZGULA_REFUSED);
    is("negative, or by access", out.verdict.detail == 1 || out.verdict.detail == 2, 1);
    is("and nothing is asked behind it", out.verdict.left, 0);
    is("commands", hidzgula_live_command(&live, NAME, 9), HIDZGULA_DONE);
    seconds(5);
    told("it does not obey", HIDZGULA_SILENT);
    is("the address", out.verdict.commanded, 9);
    ended();
}

static void commands(void)
{
    begun(255, 0, 0);
    written[0] = 0;
    is("commands", hidzgula_live_command(&live, NAME, 9), HIDZGULA_DONE);
    seconds(2);
    is("in three frames", went("1CECFFF9#20090002FFD8FE00\n"), 1);
    told("it obeys", HIDZGULA_OBEYED);
    is("its group", out.verdict.pgn, 65240);
    is("row 0", hidzgula_live_row(&live, 0, &out.row), HIDZGULA_DONE);
    is("its address", out.row.has_address * 256u + out.row.address, 256 + 9);
    ended();
}

/* nobody is there, or does not answer any more, or a frame is lost */
static void is_not_answered(void)
{
    begun(255, 40, 0);
    is("asks nobody", hidzgula_live_ask(&live, UNKNOWN, HIDZGULA_PGN_DM1), HIDZGULA_DONE);
    seconds(5);
    told("nobody", HIDZGULA_NO_SUCH_UNIT);
    is("it was not written", out.verdict.tries + out.verdict.has_after, 0);
    unit_is_deaf = true;
    written[0] = 0;
    is("asks", hidzgula_live_ask(&live, NAME, HIDZGULA_PGN_DM1), HIDZGULA_DONE);
    seconds(5);
    told("silent", HIDZGULA_SILENT);
    is("three times", out.verdict.tries, 3);
    unit_is_deaf = false;
    is("asks", hidzgula_live_ask(&live, NAME, HIDZGULA_PGN_DM2), HIDZGULA_DONE);
    lost_id = 0x1CEBF900;
    seconds(30);
    told("a packet was lost, and came again", HIDZGULA_ANSWERED);
    is("it was asked once", out.verdict.tries, 1);
    newest_has("40 codes", HIDZGULA_DM2, 40);
    is("asks", hidzgula_live_ask(&live, NAME, HIDZGULA_PGN_DM1), HIDZGULA_DONE);
    is("ends", hidzgula_live_end(&live, now), HIDZGULA_DONE);
    told("cut off", HIDZGULA_CUT_OFF);
    is("before it was written", out.verdict.detail, 0);
    is("ends nothing", hidzgula_live_end(&live, now), HIDZGULA_DONE);
    told("cut off", HIDZGULA_CUT_OFF);
    ended();
}

/* after a clear was written, frames are missed, or somebody else has the station's address: nobody knows whether it was done */
static void doubts(void)
{
    begun(255, 3, 0);
    unit_is_deaf = true;
    is("clears", hidzgula_live_clear(&live, NAME, HIDZGULA_PGN_DM3), HIDZGULA_DONE);
    run(now + 100000);
    is("misses frames", hidzgula_live_missed(&live, 5, now, &out.change), HIDZGULA_DONE);
    is("how many", out.change.what * 256u + out.change.count, HIDZGULA_MISSED * 256 + 5);
    unit_is_deaf = false;
    seconds(8);
    told("nobody knows", HIDZGULA_IN_DOUBT);
    is("why", out.verdict.detail, HIDZGULA_DOUBT_MISSED);
    is("what is left is told", out.verdict.left, HIDZGULA_ANSWERED);
    newest_has("all codes are left", HIDZGULA_DM2, 3);
    is("counts", hidzgula_live_counts(&live, &out.missed, &out.unread), HIDZGULA_DONE);
    is("counts", out.missed * 256 + out.unread, 5 * 256);
    static const uint8_t dm1[8] = { 0, 0xFF, 0, 0, 0, 0, 0xFF, 0xFF };
    is("a frame of its address", hidzgula_live_hear(&live, 0x18FECAF9, dm1, 8, now, &out.change), HIDZGULA_DONE);
    is("is a stranger's", out.change.what, HIDZGULA_STRANGER);
    is("and tells nothing more", out.change.name + out.change.address + out.change.kind, 0);
    ended();
}

/* as much waits as there is room for: a request is refused then, and nothing is written; once frames went, it is heard */
static void is_full(void)
{
    static const uint8_t request[3] = { 0x01, 0x02, 0x03 };
    unsigned taken = 0;
    opened(255);
    run(now + SECOND);
    while (taken < 1000 && hidzgula_live_hear(&live, 0x18EAF900, request, 3, now, &out.change) == HIDZGULA_DONE) taken++;
    fill();
    is("full", hidzgula_live_hear(&live, 0x18EAF900, request, 3, now, &out.change), HIDZGULA_QUEUE_FULL);
    nothing_written("full");
    is("as many as there is room for", taken, 64);
    run(now + SECOND);
    is("it is heard", hidzgula_live_hear(&live, 0x18EAF900, request, 3, now, &out.change), HIDZGULA_DONE);
    ended();
}

/* a group is shared: a unit's VIN comes by a session with the station, beside its DM2; its claim by another NAME drops what is half joined */
static void shares(uint8_t grant, bool is_shared)
{
    is_sharing = true;
    begun(grant, 40, 0);
    has_vin_unit = true;
    messages = 0;
    goes(0x18EEFF07, 0xA1, 0, 0, 0, 0, 0, 0, 0);
    seconds(1);
    if (is_shared) {
        is("shares", hidzgula_live_share(&live, VIN), HIDZGULA_DONE);
        is("shares again", hidzgula_live_share(&live, VIN), HIDZGULA_DONE);
        is("no message yet", hidzgula_live_shared_message(&live, &out.message), HIDZGULA_NO_PLACE);
    }
    is("asks for DM2", hidzgula_live_ask(&live, NAME, HIDZGULA_PGN_DM2), HIDZGULA_DONE);
    if (is_shared) is("asks for the VIN", hidzgula_live_shared_ask(&live, 7, VIN), HIDZGULA_DONE);
    else goes(0x1CECF907, 0x10, 17, 0, 3, 255, 0xEC, 0xFE, 0);
    seconds(8);
    told("DM2 came", HIDZGULA_ANSWERED);
    newest_has("40 codes", HIDZGULA_DM2, 40);
    is("the session is aborted where the group is not shared", went("1CEC07F9#FF02FFFFFFECFE00\n"), !is_shared);
    is("its request", went("18EA07F9#ECFE00\n"), is_shared);
    is("its packets are granted", went("1CEC07F9#11"), is_shared);
    is("its end", went("1CEC07F9#13110003FFECFE00\n"), is_shared);
    is("one message", messages, is_shared);
    if (is_shared) {
        is("it is there", hidzgula_live_shared_message(&live, &out.message), HIDZGULA_DONE);
        is("its group", out.message.pgn, VIN);
        is("its size", out.message.size, 17);
        is("its source", out.message.source, 7);
        is("its NAME", out.message.has_name * 1000u + out.message.name, 1000 + 0xA1);
        is("its bytes", (unsigned long)memcmp(out.message.bytes, vin, 17), 0);
        is("a request to the station is the program's", hidzgula_live_shared_hear(&live, 0x18EAF907, (const uint8_t[]) { 0xEC, 0xFE, 0 }, 3, &out.withheld, &out.whole), HIDZGULA_DONE);
        is("so it is withheld", out.withheld * 2u + out.whole, 2);
        is("one of DM2 is the station's", hidzgula_live_shared_hear(&live, 0x18EAF907, (const uint8_t[]) { 0xCB, 0xFE, 0 }, 3, &out.withheld, &out.whole), HIDZGULA_DONE);
        is("so it is not", out.withheld * 2u + out.whole, 0);
        /* its address changes hands between two packets */
        has_vin_unit = false;
        goes(0x1CECF907, 0x10, 17, 0, 3, 255, 0xEC, 0xFE, 0);
        goes(0x1CEBF907, 1, 'H', 'I', 'D', 'Z', 'G', 'U', 'L');
        goes(0x18EEFF07, 0xA2, 0, 0, 0, 0, 0, 0, 0);
        goes(0x1CEBF907, 2, 'H', 'I', 'D', 'Z', 'G', 'U', 'L');
        goes(0x1CEBF907, 3, 'H', 'I', 'D', 'Z', 'G', 'U', 'L');
        seconds(1);
        is("no message of two NAMEs", messages, 1);
    }
    is_sharing = has_vin_unit = false;
    ended();
}

/* what came of the message that was given */
static void came(const char *what, unsigned wanted, unsigned reason)
{
    fill();
    is(what, hidzgula_live_shared_sent(&live, &out.what, &out.reason), HIDZGULA_DONE);
    is(what, out.what * 256u + out.reason, wanted * 256u + reason);
}

/* a message is given, and so many seconds go */
static void sends(const char *what, uint8_t to, uint32_t pgn, const uint8_t *payload, size_t length, unsigned count)
{
    is(what, hidzgula_live_shared_send(&live, to, pgn, payload, length), HIDZGULA_DONE);
    came(what, HIDZGULA_SEND_OPEN, 0);
    is("one goes at a time", hidzgula_live_shared_send(&live, to, pgn, payload, length), HIDZGULA_SESSION_OPEN);
    written[0] = 0;
    seconds(count);
}

/* messages of a shared group: in one frame, by a broadcast, and by a session whose packets are lost, held, given up and cut off */
static void tells(void)
{
    static uint8_t payload[1786];
    for (size_t i = 0; i < sizeof payload; i++) payload[i] = (uint8_t)(3 * i + 1);
    is_sharing = true;
    begun(255, 0, 0);
    is("shares", hidzgula_live_share(&live, VIN), HIDZGULA_DONE);
    goes(0x18EEFF07, 0xA1, 0, 0, 0, 0, 0, 0, 0);
    seconds(1);
    is("shares another", hidzgula_live_share(&live, 61184), HIDZGULA_DONE);
    is("shares one that no identifier carries", hidzgula_live_share(&live, 1u << 18), HIDZGULA_DONE);
    came("nothing yet", HIDZGULA_SEND_NONE, 0);
    is("it knows the address of a NAME", hidzgula_live_row_of(&live, 0xA1, &out.row), HIDZGULA_DONE);
    is("7", out.row.has_address * 256u + out.row.address, 256 + 7);
    is("of that NAME", out.row.name, 0xA1);
    is("too long", hidzgula_live_shared_send(&live, 7, VIN, payload, 1786), HIDZGULA_TOO_LONG);
    is("to nobody", hidzgula_live_shared_send(&live, 254, VIN, payload, 9), HIDZGULA_NOT_AN_ADDRESS);
    is("to itself", hidzgula_live_shared_send(&live, OWN, VIN, payload, 9), HIDZGULA_NOT_AN_ADDRESS);
    is("one frame of a group that goes to all", hidzgula_live_shared_send(&live, 7, VIN, payload, 8), HIDZGULA_NOT_AN_ADDRESS);
    is("one that no identifier carries", hidzgula_live_shared_send(&live, 255, 1u << 18, payload, 9), HIDZGULA_NO_GROUP);

    sends("one frame to one", 7, 61184, payload, 2, 1);
    is("it went", (unsigned long)strcmp(written, "18EF07F9#0104\n"), 0);
    came("it was written", HIDZGULA_SEND_WRITTEN, 0);
    sends("one frame to all", 255, VIN, payload, 8, 1);
    is("it went", (unsigned long)strcmp(written, "18FEECF9#0104070A0D101316\n"), 0);
    sends("no bytes", 255, 61184, payload, 0, 1);
    is("they went", (unsigned long)strcmp(written, "18EFFFF9#\n"), 0);
    sends("a broadcast", 255, VIN, payload, 9, 1);
    is("it went", (unsigned long)strcmp(written, "1CECFFF9#20090002FFECFE00\n1CEBFFF9#010104070A0D1013\n1CEBFFF9#021619FFFFFFFFFF\n"), 0);
    came("it was written", HIDZGULA_SEND_WRITTEN, 0);

    has_receiver = true;
    lost_id = 0x1CEB07F9;
    sends("a session", 7, VIN, payload, 1785, 4);
    came("it was acknowledged", HIDZGULA_SEND_ACKNOWLEDGED, 0);
    is("all of it", (unsigned long)memcmp(taken, payload, 1785), 0);
    is("and not aborted", went("1CEC07F9#FF"), 0);
    holds_open = true;
    sends("one that is held open", 7, VIN, payload, 30, 1);
    came("it waits", HIDZGULA_SEND_OPEN, 0);
    run(now + 50000);
    came("for 1,050 ms", HIDZGULA_SEND_OPEN, 0);
    run(now + 1);
    came("and no longer", HIDZGULA_SEND_SILENT, 0);
    is("it is aborted", went("1CEC07F9#FF03FFFFFFECFE00\n"), 1);
    holds_open = has_receiver = false;

    is("nobody is there", hidzgula_live_shared_send(&live, 7, VIN, payload, 30), HIDZGULA_DONE);
    run(now + 1250000);
    came("it is waited for", HIDZGULA_SEND_OPEN, 0);
    run(now + 1);
    came("for 1,250 ms", HIDZGULA_SEND_SILENT, 0);

    is("it is refused", hidzgula_live_shared_send(&live, 7, VIN, payload, 30), HIDZGULA_DONE);
    run(now + 1000);
    goes(0x1CECF908, 0xFF, 1, 255, 255, 255, VIN & 0xFF, VIN >> 8, 0);
    run(now + 1000);
    came("another address says nothing", HIDZGULA_SEND_OPEN, 0);
    goes(0x1CECF907, 0xFF, 1, 255, 255, 255, VIN & 0xFF, VIN >> 8, 0);
    run(now + 1000);
    came("by its receiver", HIDZGULA_SEND_ABORTED, 1);

    is("a packet is asked for again", hidzgula_live_shared_send(&live, 7, VIN, payload, 30), HIDZGULA_DONE);
    for (unsigned i = 0; i < 3; i++) {
        run(now + 1000);
        goes(0x1CECF907, 0x11, 1, 1, 255, 255, VIN & 0xFF, VIN >> 8, 0);
        run(now + 1000);
        came("twice at most", HIDZGULA_SEND_OPEN, 0);
    }
    goes(0x1CECF907, 0x11, 1, 1, 255, 255, VIN & 0xFF, VIN >> 8, 0);
    run(now + 1000);
    came("it was asked for a third time", HIDZGULA_SEND_ASKED_TOO_OFTEN, 0);
    is("so it is aborted", went("1CEC07F9#FF05FFFFFFECFE00\n"), 1);

    is("its address goes to another", hidzgula_live_shared_send(&live, 7, VIN, payload, 30), HIDZGULA_DONE);
    run(now + 1000);
    goes(0x18EEFF07, 0xA1, 0, 0, 0, 0, 0, 0, 0);
    run(now + 1000);
    came("the same NAME may claim it", HIDZGULA_SEND_OPEN, 0);
    goes(0x18EEFF07, 0xA2, 0, 0, 0, 0, 0, 0, 0);
    run(now + 1000);
    came("another one ends it", HIDZGULA_SEND_CUT_OFF, 0);
    run(now + 2 * SECOND);
    came("for good", HIDZGULA_SEND_CUT_OFF, 0);
    is_sharing = false;
    ended();
}

int main(void)
{
    on_empty("empty");
    live.full = true; /* no program writes there; a station is where the pointer is not NULL, whatever stands beside it */
    on_empty("a flag alone");
    memset(&live, 0xFF, sizeof live);
    live.at = NULL;
    on_empty("no pointer");
    bad_settings();
    on_empty("refused");
    opened(255);
    refused_by_arguments();
    hidzgula_live_close(&live);
    on_empty("closed");
    claims();
    asks(255);
    asks(16);
    asks(1);
    clears();
    is_refused();
    commands();
    is_not_answered();
    doubts();
    is_full();
    shares(255, true);
    shares(1, true);
    shares(255, false);
    tells();
    on_empty("closed");
    return sums();
}
