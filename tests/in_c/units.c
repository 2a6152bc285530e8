/* Simulated units: what a C program may do wrong with them, and what they write, alone and against a station in the same process. Writes a line for each
 * try that is otherwise, and then the sums. */
#include "tries.h"

static hidzgula_unit unit = HIDZGULA_EMPTY;
static hidzgula_station station = HIDZGULA_EMPTY;
static const hidzgula_unit_settings usual = HIDZGULA_USUAL_SETTINGS;
static const uint8_t bytes[9] = { 0xA0, 0, 0, 0, 0, 0, 0, 0, 0 };
static uint64_t now;

enum { NAME = 0x1419907, SECOND = 1000000 };

/* everything that a call can write, filled with bytes that no call writes */
static struct written {
    hidzgula_frame frame;
    hidzgula_unit_counts_out counts;
    uint64_t at;
    uint8_t has, address;
} out, before;

static void fill(void)
{
    memset(&out, 0xA5, sizeof out);
    memcpy(&before, &out, sizeof out);
}

static void nothing_written(const char *what) { is(what, (unsigned long)memcmp(&out, &before, sizeof out), 0); }

/* all calls on a unit that is empty */
static void on_empty(const char *when)
{
    fill();
    is(when, hidzgula_unit_hear(&unit, 0x18EAFFFE, bytes, 3, now), HIDZGULA_NO_UNIT);
    is(when, hidzgula_unit_next(&unit, now, &out.frame, &out.has), HIDZGULA_NO_UNIT);
    is(when, hidzgula_unit_when(&unit, now, &out.at), HIDZGULA_NO_UNIT);
    is(when, hidzgula_unit_set(&unit, 1u << 19, 32), HIDZGULA_NO_UNIT);
    is(when, hidzgula_unit_heal(&unit, 110, 0), HIDZGULA_NO_UNIT);
    is(when, hidzgula_unit_pend(&unit, 110, 0), HIDZGULA_NO_UNIT);
    is(when, hidzgula_unit_unpend(&unit, 110, 0), HIDZGULA_NO_UNIT);
    is(when, hidzgula_unit_lamps(&unit, 0x04, 0xFF), HIDZGULA_NO_UNIT);
    is(when, hidzgula_unit_begin(&unit, HIDZGULA_DM1), HIDZGULA_NO_UNIT);
    is(when, hidzgula_unit_held(&unit, &out.has, &out.address), HIDZGULA_NO_UNIT);
    is(when, hidzgula_unit_counts(&unit, &out.counts), HIDZGULA_NO_UNIT);
    /* what is wrong with the arguments is told first */
    is(when, hidzgula_unit_hear(&unit, 1u << 29, bytes, 9, now), HIDZGULA_ID_TOO_LARGE);
    is(when, hidzgula_unit_hear(&unit, 0, bytes, 9, now), HIDZGULA_TOO_LONG);
    is(when, hidzgula_unit_begin(&unit, 3), HIDZGULA_NO_KIND);
    nothing_written(when);
    hidzgula_unit_close(&unit);
    hidzgula_unit_close(&unit);
}

static void bad_settings(void)
{
    static const hidzgula_unit_settings bad[] = { { 9999, 250000, 0, 0 }, { 200001, 250000, 0, 0 }, { UINT64_MAX, 0, 0, 0 }, { 50000, 1000001, 0, 0 },
        { 50000, UINT64_MAX, 1, 1 } };
    for (size_t i = 0; i < sizeof bad / sizeof bad[0]; i++) is("a bad setting", hidzgula_unit_open(&unit, NAME, 0, &bad[i]), HIDZGULA_BAD_SETTING);
    is("address 254", hidzgula_unit_open(&unit, NAME, 254, &usual), HIDZGULA_BAD_SETTING);
    is("address 255", hidzgula_unit_open(&unit, NAME, 255, &usual), HIDZGULA_BAD_SETTING);
}

static void opened(const hidzgula_unit_settings *settings)
{
    is("open", hidzgula_unit_open(&unit, NAME, 128, settings), HIDZGULA_DONE);
}

static void refused_by_arguments(void)
{
    fill();
    bad_settings();
    is("opened twice", hidzgula_unit_open(&unit, NAME, 0, &usual), HIDZGULA_HAS_UNIT);
    is("identifier 2^29", hidzgula_unit_hear(&unit, 1u << 29, bytes, 8, now), HIDZGULA_ID_TOO_LARGE);
    is("nine bytes", hidzgula_unit_hear(&unit, (1u << 29) - 1, bytes, 9, now), HIDZGULA_TOO_LONG);
    is("SPN 2^19", hidzgula_unit_set(&unit, 1u << 19, 32), HIDZGULA_SPN_TOO_LARGE);
    is("SPN 2^32 - 1", hidzgula_unit_heal(&unit, UINT32_MAX, 0), HIDZGULA_SPN_TOO_LARGE);
    is("FMI 32", hidzgula_unit_pend(&unit, 0, 32), HIDZGULA_FMI_TOO_LARGE);
    is("FMI 255", hidzgula_unit_unpend(&unit, (1u << 19) - 1, 255), HIDZGULA_FMI_TOO_LARGE);
    is("a code that is not active", hidzgula_unit_heal(&unit, 110, 0), HIDZGULA_NOT_ACTIVE);
    is("a code that is not pending", hidzgula_unit_unpend(&unit, 110, 0), HIDZGULA_NOT_PENDING);
    is("kind 0", hidzgula_unit_begin(&unit, 0), HIDZGULA_NO_KIND);
    is("kind 255", hidzgula_unit_begin(&unit, 255), HIDZGULA_NO_KIND);
    nothing_written("what was refused writes nothing");
}

/* the next frame of the unit is this one */
static void gives(const char *what, uint32_t id, const char *data)
{
    char got[17] = "";
    fill();
    is(what, hidzgula_unit_next(&unit, now, &out.frame, &out.has), HIDZGULA_DONE);
    is(what, out.has, 1);
    is(what, out.frame.id, id);
    for (int i = 0; out.has == 1 && i < out.frame.length; i++) snprintf(got + 2 * i, 3, "%02X", out.frame.bytes[i]);
    is(what, strcmp(got, data) == 0, 1);
    if (strcmp(got, data) != 0) printf("%s: %s, wanted %s\n", what, got, data);
}

/* the unit has no frame now, and writes nothing but that */
static void gives_none(const char *what)
{
    fill();
    before.has = 0;
    is(what, hidzgula_unit_next(&unit, now, &out.frame, &out.has), HIDZGULA_DONE);
    nothing_written(what);
}

static void looks_again_at(const char *what, uint64_t at)
{
    is(what, hidzgula_unit_when(&unit, now, &out.at), HIDZGULA_DONE);
    is(what, out.at, at);
}

static void hears(const char *what, uint32_t id, size_t length, const uint8_t *said)
{
    is(what, hidzgula_unit_hear(&unit, id, said, length, now), HIDZGULA_DONE);
}

static void holds(const char *what, unsigned has, unsigned address)
{
    is(what, hidzgula_unit_held(&unit, &out.has, &out.address), HIDZGULA_DONE);
    is(what, out.has * 256u + out.address, has * 256u + address);
}

static void counted(const char *what, uint64_t put, uint64_t written, uint64_t withdrawn, uint64_t waiting)
{
    is(what, hidzgula_unit_counts(&unit, &out.counts), HIDZGULA_DONE);
    is(what, out.counts.put, put);
    is(what, out.counts.written, written);
    is(what, out.counts.withdrawn, withdrawn);
    is(what, out.counts.waiting, waiting);
}

/* a unit claims, settles, tells of its fault each second and of its end at once, and says when it is to be asked again */
static void by_itself(void)
{
    now = 5 * SECOND;
    counted("its claim waits", 1, 0, 0, 1);
    holds("an address", 1, 128);
    looks_again_at("at once", now);
    gives("a claim", 0x18EEFF80, "0799410100000000");
    gives_none("nothing behind the claim");
    looks_again_at("nothing is to be told", UINT64_MAX);
    is("a fault", hidzgula_unit_set(&unit, 110, 0), HIDZGULA_DONE);
    is("the same fault", hidzgula_unit_set(&unit, 110, 0), HIDZGULA_DONE);
    is("its lamp", hidzgula_unit_lamps(&unit, 0x04, 0xFF), HIDZGULA_DONE);
    looks_again_at("when it has settled", now + 250000);
    now += 249999;
    gives_none("it has not settled");
    now += 1;
    gives("a DM1", 0x18FECA80, "04FF6E000001FFFF");
    gives_none("one a second");
    looks_again_at("in a second", now + SECOND);
    now += SECOND;
    gives("the next DM1", 0x18FECA80, "04FF6E000001FFFF");
    is("it has gone", hidzgula_unit_heal(&unit, 110, 0), HIDZGULA_DONE);
    is("the lamp is off", hidzgula_unit_lamps(&unit, 0x00, 0xFF), HIDZGULA_DONE);
    gives("a DM1 of that at once", 0x18FECA80, "00FF00000000FFFF");
    looks_again_at("in a second", now + SECOND);
    now += SECOND;
    gives_none("and no more");
    looks_again_at("and no more", UINT64_MAX);
    is("a pending fault", hidzgula_unit_pend(&unit, 100, 1), HIDZGULA_DONE);
    is("a DM6 is begun", hidzgula_unit_begin(&unit, HIDZGULA_DM6), HIDZGULA_DONE);
    gives("a DM6", 0x18FECF80, "00FF64000101FFFF");
    is("it is gone", hidzgula_unit_unpend(&unit, 100, 1), HIDZGULA_DONE);
    is("a DM2 is begun", hidzgula_unit_begin(&unit, HIDZGULA_DM2), HIDZGULA_DONE);
    gives("a DM2", 0x18FECB80, "00FF6E000001FFFF");
    counted("all is written", 6, 6, 0, 0);
}

/* a DM1 of three codes to the one who asked, by request to send and clear to send, in rows as that one grants; and one that is left alone */
static void in_a_session(void)
{
    static const uint8_t asks[3] = { 0xCA, 0xFE, 0x00 }, grants_first[8] = { 17, 1, 1, 0xFF, 0xFF, 0xCA, 0xFE, 0 }, grants_second[8] = { 17, 1, 2, 0xFF, 0xFF, 0xCA, 0xFE, 0 };
    static const uint8_t holds_open[8] = { 17, 0, 0xFF, 0xFF, 0xFF, 0xCA, 0xFE, 0 }, has_all[8] = { 19, 14, 0, 2, 0xFF, 0xCA, 0xFE, 0 };
    for (uint32_t spn = 1; spn <= 3; spn++) is("a fault", hidzgula_unit_set(&unit, spn, (uint8_t)spn), HIDZGULA_DONE);
    hears("a request for DM1", 0x18EA80F9, 3, asks);
    gives("a request to send", 0x1CECF980, "100E0002FFCAFE00");
    gives_none("no packet before it is granted");
    is("begun meanwhile", hidzgula_unit_begin(&unit, HIDZGULA_DM1), HIDZGULA_SESSION_OPEN);
    hears("the first packet is granted", 0x1CEC80F9, 8, grants_first);
    gives("the first packet", 0x1CEBF980, "0100FF0100010102");
    gives_none("no packet before it is granted");
    looks_again_at("when it is left alone", now + 1250000);
    now += SECOND;
    hears("the session is held open", 0x1CEC80F9, 8, holds_open);
    looks_again_at("when it is left alone then", now + 1050000);
    now += SECOND;
    hears("the second packet is granted", 0x1CEC80F9, 8, grants_second);
    gives("the second packet", 0x1CEBF980, "0200020103000301");
    hears("the first one is asked for again", 0x1CEC80F9, 8, grants_first);
    gives("the first packet again", 0x1CEBF980, "0100FF0100010102");
    gives_none("nothing more");
    hears("the message is whole", 0x1CEC80F9, 8, has_all);
    hears("a request for DM1", 0x18EA80F9, 3, asks);
    gives("a request to send", 0x1CECF980, "100E0002FFCAFE00");
    looks_again_at("when it is left alone", now + 1250000);
    now += 1250000;
    gives("an abort", 0x1CECF980, "FF03FFFFFFCAFE00");
    gives("the DM1 that waited for the session's end", 0x1CECFF80, "200E0002FFCAFE00");
}

/* its address is lost in the midst of that broadcast: no further packet goes */
static void lost_in_the_middle(void)
{
    uint64_t put = 0;
    gives_none("a packet after the gap");
    looks_again_at("after the gap", now + 50000);
    now += 49999;
    gives_none("a packet after the gap");
    now += 1;
    gives("the first packet", 0x1CEBFF80, "0100FF0100010102");
    gives_none("the second one after the gap");
    hidzgula_unit_counts(&unit, &out.counts);
    put = out.counts.put;
    hears("a claim by a lower NAME", 0x18EEFF80, 8, bytes);
    holds("none", 0, 0);
    counted("the packet is withdrawn, and a cannot claim waits", put + 1, put - 1, 1, 1);
    is("without address", hidzgula_unit_begin(&unit, HIDZGULA_DM1), HIDZGULA_NOT_HELD);
    looks_again_at("a pause by its identity number", now + 1000 * (NAME % (1 << 21) % 154));
    gives_none("in the pause");
    now += 1000 * (NAME % (1 << 21) % 154);
    gives("cannot claim", 0x18EEFFFE, "0799410100000000");
    now += 10 * SECOND;
    gives_none("nothing from a unit without address");
    looks_again_at("nothing", UINT64_MAX);
}

/* 445 codes are the most; a unit has no room for more answers than may wait */
static void full(void)
{
    static const uint8_t asks[3] = { 0xCB, 0xFE, 0x00 };
    unsigned heard = 0;
    for (uint32_t spn = 0; spn < 445; spn++) is("a fault", hidzgula_unit_set(&unit, spn, 31), HIDZGULA_DONE);
    is("one more", hidzgula_unit_set(&unit, 445, 31), HIDZGULA_MEMORY_FULL);
    is("one more", hidzgula_unit_pend(&unit, 445, 31), HIDZGULA_MEMORY_FULL);
    while (heard < 1000 && hidzgula_unit_hear(&unit, 0x18EAFFF9, asks, 3, now) == HIDZGULA_DONE) heard++;
    is("as many answers wait as there is room for", heard, 64);
    hidzgula_unit_counts(&unit, &out.counts);
    is("refused", hidzgula_unit_hear(&unit, 0x18EAFFF9, asks, 3, now), HIDZGULA_QUEUE_FULL);
    is("refused", hidzgula_unit_begin(&unit, HIDZGULA_DM2), HIDZGULA_QUEUE_FULL);
    counted("and nothing is more", out.counts.put, out.counts.written, out.counts.withdrawn, out.counts.waiting);
    is("any other frame is heard", hidzgula_unit_hear(&unit, 0x18EEFF07, bytes, 8, now), HIDZGULA_DONE);
}

/* a guarded unit clears nothing and does not obey; a plain one does both */
static void asked_to_clear(const char *what, const hidzgula_unit_settings *settings, const char *answer, uint32_t left)
{
    static const uint8_t dm11[3] = { 0xD3, 0xFE, 0x00 };
    opened(settings);
    gives("a claim", 0x18EEFF80, "0799410100000000");
    is("a fault", hidzgula_unit_set(&unit, 110, 0), HIDZGULA_DONE);
    now += SECOND;
    if (settings->guarded) gives_none("it tells nothing");
    else gives("a DM1", 0x18FECA80, "00FF6E000001FFFF");
    hears("a request to clear", 0x18EA80F9, 3, dm11);
    gives(what, 0x18E8FF80, answer);
    is(what, hidzgula_unit_heal(&unit, 110, 0), left);
    hidzgula_unit_close(&unit);
}

/* frames go to and fro between the unit and the station until both are silent; answers how many the unit wrote */
static unsigned both(void)
{
    unsigned written = 0;
    hidzgula_reply reply;
    hidzgula_change change;
    for (uint8_t has = 1; has;) {
        if (hidzgula_unit_next(&unit, now, &out.frame, &has) != HIDZGULA_DONE || !has) break;
        written++;
        is("the station takes it", hidzgula_take_frame(&station, out.frame.id, out.frame.bytes, out.frame.length, &reply, &change), HIDZGULA_DONE);
        for (int i = 0; i < reply.count; i++) hears("the unit hears the reply", reply.frames[i].id, reply.frames[i].length, reply.frames[i].bytes);
    }
    return written;
}

static void asked(uint32_t pgn)
{
    hidzgula_reply reply;
    is("the station asks", hidzgula_ask(&station, NAME, pgn, &reply), HIDZGULA_DONE);
    for (int i = 0; i < reply.count; i++) hears("the unit hears it", reply.frames[i].id, reply.frames[i].length, reply.frames[i].bytes);
}

/* the newest message of a kind has so many codes, the last of them this */
static void listed(uint8_t kind, uint64_t messages, size_t codes, uint32_t spn)
{
    uint64_t count = 0;
    hidzgula_entry_out entry = { 0, 0, 0 };
    hidzgula_code_out code = { 0, 0, 0 };
    is("messages", hidzgula_entries(&station, NAME, kind, &count), HIDZGULA_DONE);
    is("messages", count, messages);
    is("the newest", hidzgula_entry(&station, NAME, kind, count - 1, &entry), HIDZGULA_DONE);
    is("its codes", entry.codes, codes);
    if (!codes) return;
    is("the last code", hidzgula_code(&station, NAME, kind, count - 1, codes - 1, &code), HIDZGULA_DONE);
    is("the last code", code.spn, spn);
}

/* what is set in the unit is what the station lists: of one code, of a broadcast, of a session of 254 packets, and after a clear */
static void against_a_station(void)
{
    opened(&usual);
    is("open", hidzgula_open(&station, 1, 249, 3, UINT32_MAX), HIDZGULA_DONE);
    both();
    is("a fault", hidzgula_unit_set(&unit, 1208, 3), HIDZGULA_DONE);
    now += 250000;
    both();
    listed(HIDZGULA_DM1, 1, 1, 1208);
    is("another fault", hidzgula_unit_set(&unit, 110, 0), HIDZGULA_DONE);
    for (int i = 0; i < 4; i++, now += 250000) both();
    for (int i = 0; i < 4; i++, now += 50000) both();
    listed(HIDZGULA_DM1, 3, 2, 110);
    is("it heals", hidzgula_unit_heal(&unit, 110, 0), HIDZGULA_DONE);
    asked(HIDZGULA_PGN_DM2);
    both();
    listed(HIDZGULA_DM2, 1, 1, 110);
    for (uint32_t spn = 2000; spn < 2443; spn++) is("a fault", hidzgula_unit_pend(&unit, spn, 1), HIDZGULA_DONE);
    asked(HIDZGULA_PGN_DM6);
    is("an announcement and 254 packets, each after the station's leave", both(), 255);
    listed(HIDZGULA_DM6, 1, 443, 2442);
    asked(HIDZGULA_PGN_DM11);
    both();
    asked(HIDZGULA_PGN_DM6);
    both();
    listed(HIDZGULA_DM6, 2, 0, 0);
    hidzgula_close(&station);
    hidzgula_unit_close(&unit);
}

int main(void)
{
    static const hidzgula_unit_settings guarded = { 50000, 250000, 0, 1 }, always = { 10000, 0, 2, 0 };
    on_empty("never opened");
    bad_settings();
    on_empty("refused to open");
    opened(&usual);
    refused_by_arguments();
    by_itself();
    in_a_session();
    lost_in_the_middle();
    hidzgula_unit_close(&unit);
    on_empty("closed");
    asked_to_clear("cleared", &usual, "00FFFFFFF9D3FE00", HIDZGULA_NOT_ACTIVE);
    asked_to_clear("denied", &guarded, "01FFFFFFF9D3FE00", HIDZGULA_DONE);
    opened(&always);
    gives("a claim", 0x18EEFF80, "0799410100000000");
    gives("a DM1 without fault", 0x18FECA80, "00FF00000000FFFF");
    full();
    hidzgula_unit_close(&unit);
    against_a_station();
    return sums();
}
