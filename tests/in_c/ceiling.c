/* A hostile bus: a million frames, claims of ever new NAMEs with messages behind them. A station, a live station and a listener for which room is
 * made before each frame never have more NAMEs, nor take more bytes, than was asked for; no message is listed under another NAME than the last that
 * claimed its address; and each is begun anew again and again with those that hold addresses. Writes a line for each that is otherwise, and then
 * the sums.
 *
 *     ceiling             a million frames each
 *     ceiling FRAMES      fewer
 *
 * Linked with --wrap for malloc, realloc and free, which the archive calls. */
#include "tries.h"

#include <malloc.h>
#include <stdlib.h>

void *__real_malloc(size_t size);
void *__real_realloc(void *block, size_t size);
void __real_free(void *block);

static size_t held, peak, requests, refused;

static void *given(void *block)
{
    held += malloc_usable_size(block);
    if (held > peak) peak = held;
    return block;
}

static bool refuse(void) { return ++requests == refused; }

void *__wrap_malloc(size_t size) { return refuse() ? NULL : given(__real_malloc(size)); }

void *__wrap_realloc(void *block, size_t size)
{
    if (refuse()) return NULL;
    held -= malloc_usable_size(block);
    void *moved = __real_realloc(block, size);
    return given(moved ? moved : block);
}

void __wrap_free(void *block)
{
    held -= malloc_usable_size(block);
    __real_free(block);
}

enum { OWN = 249 };

/* the bytes that it may take: so many NAMEs, of each list so many messages kept */
static size_t stated(size_t names, size_t keep) { return 2000000 + names * (2000 + 3 * keep * 2048); }

/* and a listener beyond that, for messages that are under way between any two addresses */
enum { UNDER_WAY = 126000000 };

static hidzgula_station station = HIDZGULA_EMPTY;
static hidzgula_live live = HIDZGULA_EMPTY;
static hidzgula_listener listener = HIDZGULA_EMPTY;
static hidzgula_reply reply;
static hidzgula_change change;
static hidzgula_heard heard;
static uint64_t owner[256], made;
static uint64_t gaps, gaps_at[256]; /* of a listener, in all and when the owner claimed */
static uint32_t seed;

static uint32_t any(uint32_t below)
{
    seed = seed * 1664525 + 1013904223;
    return (seed >> 8) % below;
}

/* a claim of a new NAME, a DM1, the begin of a broadcast or a session, or a packet of one; never from the station's own address, as most units do */
static hidzgula_frame hostile(void)
{
    hidzgula_frame frame = { 0, 8, { 0 } };
    uint32_t source = any(253);
    source += source >= OWN;
    const uint32_t what = any(8);
    if (what < 4) {
        const uint64_t name = 0x8000000000000000u | ++made;
        frame.id = 0x18EEFF00 | source;
        for (int i = 0; i < 8; i++) frame.bytes[i] = (uint8_t)(name >> 8 * i);
        owner[source] = name;
        gaps_at[source] = gaps;
    } else if (what < 6) {
        const uint8_t dm1[8] = { 0x04, 0xFF, (uint8_t)any(256), 1, 3, 1, 0xFF, 0xFF };
        frame.id = (what == 4 ? 0x18FECA00u : 0x18FECB00u) | source;
        memcpy(frame.bytes, dm1, 8);
    } else if (what == 6) {
        const uint8_t bam[8] = { 0x20, 0xF9, 6, 255, 0xFF, 0xCA, 0xFE, 0 };
        frame.id = 0x1CECFF00 | source;
        memcpy(frame.bytes, bam, 8);
    } else {
        frame.id = 0x1CEBFF00 | source;
        frame.bytes[0] = 1;
    }
    return frame;
}

static void begin(const char *what, size_t most)
{
    printf("# %s, %zu NAMEs\n", what, most);
    memset(owner, 0, sizeof owner);
    seed = 1, made = 0, gaps = 0, peak = held;
}

/* sums over all frames: more NAMEs than there are to be, messages under another NAME; how often begun anew, listed and not */
static struct {
    unsigned long many, wrong, anew, listed, unowned;
} found;

static void end(size_t most, size_t bytes, size_t begun, size_t frames)
{
    is("more NAMEs than there are to be", found.many, 0);
    is("messages under another NAME", found.wrong, 0);
    is("memory below what is stated", peak - begun < bytes, 1);
    is("begun anew", found.anew > frames / 4 / most, 1);
    is("messages are listed", found.listed > 0, 1);
    printf("# %zu bytes at most, %zu stated; begun anew %lu times, listed %lu, unowned %lu\n", peak - begun, bytes, found.anew, found.listed, found.unowned);
    memset(&found, 0, sizeof found);
}

static void look(size_t rows, size_t most, uint8_t what, uint64_t name, uint8_t source)
{
    if (rows > most) found.many++;
    if (what == HIDZGULA_LISTED) found.listed++;
    if (what == HIDZGULA_LISTED && name != owner[source]) found.wrong++;
    if (what == HIDZGULA_UNOWNED) found.unowned++;
}

/* who has no NAME is not who had the address, unclaimed, before the owner claimed it */
static void look_heard(size_t rows, size_t most)
{
    const bool is_unclaimed = heard.what == HIDZGULA_LISTED && !heard.who.has_name;
    look(rows, most, heard.what, is_unclaimed ? owner[heard.source] : heard.who.name, heard.source);
    if (!is_unclaimed) return;
    found.unowned++;
    if (heard.who.gaps != gaps || (owner[heard.source] && gaps_at[heard.source] == gaps)) found.wrong++;
}

static void station_at(size_t most, uint32_t keep, size_t frames)
{
    const size_t begun = held;
    uint8_t anew = 0;
    size_t rows = 0;
    begin("a station", most);
    is("open", hidzgula_open(&station, 1, OWN, 255, keep), HIDZGULA_DONE);
    for (size_t i = 0; i < frames; i++) {
        if (hidzgula_make_room(&station, most, &anew) != HIDZGULA_DONE) abort();
        found.anew += anew;
        const hidzgula_frame frame = hostile();
        if (hidzgula_take_frame(&station, frame.id, frame.bytes, 8, &reply, &change) != HIDZGULA_DONE) abort();
        hidzgula_rows(&station, &rows);
        look(rows, most, change.what, change.name, change.address);
    }
    end(most, stated(most, keep), begun, frames);
    hidzgula_close(&station);
    is("what is left of memory", held, begun);
}

static void live_at(size_t most, uint32_t keep, size_t frames)
{
    const size_t begun = held;
    const hidzgula_live_settings settings = { 50000, 250000, keep, 255 };
    hidzgula_frame sent;
    uint8_t anew = 0, has = 0;
    uint64_t now = 0;
    size_t rows = 0;
    begin("a live station", most);
    is("open", hidzgula_live_open(&live, 1, OWN, &settings), HIDZGULA_DONE);
    for (size_t i = 0; i < frames; i++, now += 500) {
        if (hidzgula_live_make_room(&live, most, &anew) != HIDZGULA_DONE) abort();
        found.anew += anew;
        const hidzgula_frame frame = hostile();
        if (hidzgula_live_hear(&live, frame.id, frame.bytes, 8, now, &change) != HIDZGULA_DONE) abort();
        hidzgula_live_rows(&live, &rows);
        look(rows, most, change.what, change.name, change.address);
        while (hidzgula_live_next(&live, now, &sent, &has) == HIDZGULA_DONE && has) continue;
    }
    end(most, stated(most, keep), begun, frames);
    hidzgula_live_close(&live);
    is("what is left of memory", held, begun);
}

static void listener_at(size_t most, uint32_t keep, size_t frames)
{
    const size_t begun = held;
    uint8_t anew = 0;
    size_t rows = 0, units = 0;
    begin("a listener", most);
    is("open", hidzgula_listener_open(&listener, keep), HIDZGULA_DONE);
    for (size_t i = 0; i < frames; i++) {
        if (hidzgula_listener_make_room(&listener, most, &anew) != HIDZGULA_DONE) abort();
        found.anew += anew, gaps += anew;
        if (i % 1000 == 0) {
            if (hidzgula_listener_missed_at(&listener, i * 500, 1, &heard) != HIDZGULA_DONE) abort();
            memset(owner, 0, sizeof owner);
            gaps++;
        }
        const hidzgula_frame frame = hostile();
        if (hidzgula_listener_take_at(&listener, i * 500, frame.id, frame.bytes, 8, &heard) != HIDZGULA_DONE) abort();
        hidzgula_listener_rows(&listener, &rows);
        hidzgula_listener_units(&listener, &units);
        look_heard(rows > units ? rows : units, most);
    }
    end(most, stated(most, keep) + UNDER_WAY, begun, frames);
    hidzgula_listener_close(&listener);
    is("what is left of memory", held, begun);
}

/* ---- the most that there can be */

/* a frame of eight bytes, to the station or the listener */
static void put(bool listens, uint32_t id, const uint8_t *bytes)
{
    if (listens) {
        hidzgula_listener_take_at(&listener, HIDZGULA_NO_TIME, id, bytes, 8, &heard);
    } else {
        hidzgula_take_frame(&station, id, bytes, 8, &reply, &change);
    }
}

/* what begins a message of 1,782 bytes to an address, or to all */
static void announce(bool listens, uint32_t source, uint32_t to, uint32_t pgn)
{
    const uint8_t begins[8] = { to == 255 ? 0x20 : 0x10, 0xF6, 6, 255, 0xFF, (uint8_t)pgn, (uint8_t)(pgn >> 8), 0 };
    put(listens, 0x1CEC0000u | to << 8 | source, begins);
}

/* a message of 445 codes to all */
static void longest(bool listens, uint8_t source, uint32_t pgn)
{
    uint8_t packet[8] = { 0 };
    announce(listens, source, 255, pgn);
    for (int number = 1; number <= 255; number++) {
        for (int i = 0; i < 7; i++) packet[i + 1] = (uint8_t)((number * 7 + i - 9) & 0x7F);
        packet[0] = (uint8_t)number;
        put(listens, 0x1CEBFF00u | source, packet);
    }
    const uint64_t name = listens ? heard.who.name : change.name;
    if ((listens ? heard.what : change.what) != HIDZGULA_LISTED || name != owner[source]) found.wrong++;
}

/* each NAME has as many of the longest messages in its lists as are kept, and more; what may be is no more than a half beyond */
static void full_lists(bool listens, size_t most, uint32_t keep)
{
    static const uint32_t pgns[] = { HIDZGULA_PGN_DM1, HIDZGULA_PGN_DM2, HIDZGULA_PGN_DM6 };
    const size_t begun = held;
    uint8_t anew = 0, bytes[8] = { 0 };
    begin(listens ? "a listener with full lists" : "a station with full lists", most);
    is("open", listens ? hidzgula_listener_open(&listener, keep) : hidzgula_open(&station, 1, OWN, 255, keep), HIDZGULA_DONE);
    for (size_t name = 1; name <= 2 * most + 1; name++) {
        const uint8_t source = (uint8_t)(name % 8);
        if (listens ? hidzgula_listener_make_room(&listener, most, &anew) : hidzgula_make_room(&station, most, &anew)) abort();
        found.anew += anew;
        bytes[0] = (uint8_t)name, bytes[1] = (uint8_t)(name >> 8), bytes[7] = 0x80;
        owner[source] = 0x8000000000000000u | name;
        put(listens, 0x18EEFF00u | source, bytes);
        for (size_t i = 0; i < 3 * (keep + 1); i++) longest(listens, source, pgns[i % 3]);
    }
    is("messages under another NAME", found.wrong, 0);
    is("begun anew, with full lists", found.anew, 2);
    is("memory below what is stated", peak - begun < stated(most, keep), 1);
    is("and not far below", stated(most, keep) < (peak - begun) * 3 / 2, 1);
    printf("# %zu bytes at most, %zu stated\n", peak - begun, stated(most, keep));
    hidzgula_close(&station);
    hidzgula_listener_close(&listener);
    is("what is left of memory", held, begun);
    memset(&found, 0, sizeof found);
}

/* from each address a message of the most bytes is under way to all and to each other one */
static void all_under_way(bool listens)
{
    const size_t begun = held, bytes = stated(253, 0) + (listens ? UNDER_WAY : 0);
    uint8_t claimed[8] = { 0 };
    begin(listens ? "a listener, with messages under way" : "a station, with messages under way", 253);
    is("open", listens ? hidzgula_listener_open(&listener, 0) : hidzgula_open(&station, 1, OWN, 255, 0), HIDZGULA_DONE);
    for (uint32_t source = 0; source < 256; source++) {
        claimed[0] = (uint8_t)source, claimed[7] = 0x80;
        if (source < 254 && source != OWN) put(listens, 0x18EEFF00u | source, claimed);
        for (uint32_t to = 0; to < 256; to++) announce(listens, source, to, HIDZGULA_PGN_DM1);
    }
    is("memory below what is stated", peak - begun < bytes, 1);
    is("and not far below", bytes < (peak - begun) * 3, 1);
    printf("# %zu bytes at most, %zu stated\n", peak - begun, bytes);
    hidzgula_close(&station);
    hidzgula_listener_close(&listener);
    is("what is left of memory", held, begun);
}

/* ---- what is gone on with, and what is refused */

static void claim(uint64_t name, uint8_t source)
{
    uint8_t bytes[8];
    for (int i = 0; i < 8; i++) bytes[i] = (uint8_t)(name >> 8 * i);
    is("a claim", hidzgula_take_frame(&station, 0x18EEFF00u | source, bytes, 8, &reply, &change), HIDZGULA_DONE);
}

/* four NAMEs: 0xA1 at 1, 0xA2 moved from 2 to 3, 0xA3 gave up, 0xA4 lost its address to 0xA2; and a message of 0xA1 */
static void four_names(void)
{
    const uint8_t dm1[8] = { 0x04, 0xFF, 110, 0, 3, 1, 0xFF, 0xFF };
    is("open", hidzgula_open(&station, 0x9000000000000001u, OWN, 255, 16), HIDZGULA_DONE);
    claim(0xA1, 1);
    claim(0xA2, 2);
    claim(0xA4, 3);
    claim(0xA2, 3);
    claim(0xA3, 254);
    is("a message", hidzgula_take_frame(&station, 0x18FECA01, dm1, 8, &reply, &change), HIDZGULA_DONE);
    is("it is listed", change.what, HIDZGULA_LISTED);
}

static void row_is(size_t place, uint64_t name, uint8_t address)
{
    hidzgula_row_out row;
    is("a row", hidzgula_row(&station, place, &row), HIDZGULA_DONE);
    is("its NAME", row.name, name);
    is("it has an address", row.has_address, 1);
    is("which is", row.address, address);
}

static void what_is_known(void)
{
    uint8_t anew = 7, has = 0, address = 0;
    size_t rows = 0;
    uint64_t count = 7;
    four_names();
    is("room for a fifth", hidzgula_make_room(&station, 5, &anew), HIDZGULA_DONE);
    is("nothing changed", anew, 0);
    is("no room", hidzgula_make_room(&station, 4, &anew), HIDZGULA_DONE);
    is("begun anew", anew, 1);
    hidzgula_rows(&station, &rows);
    is("two hold addresses", rows, 2);
    row_is(0, 0xA1, 1);
    row_is(1, 0xA2, 3);
    is("its list", hidzgula_entries(&station, 0xA1, HIDZGULA_DM1, &count), HIDZGULA_DONE);
    is("its list is empty", count, 0);
    hidzgula_held(&station, &has, &address);
    is("its own address", has * 256u + address, 256u + OWN);
    is("an order to one that is known", hidzgula_ask(&station, 0xA2, HIDZGULA_PGN_DM1, &reply), HIDZGULA_DONE);
    is("goes to its address", reply.frames[0].id >> 8 & 255, 3);
    is("no room for two", hidzgula_make_room(&station, 2, &anew), HIDZGULA_DONE);
    hidzgula_rows(&station, &rows);
    is("begun anew with none", anew * 256u + rows, 256);
    hidzgula_close(&station);
}

/* a NAME that contended for the station's own address, and lost, is not told to it again */
static void own_address(void)
{
    uint8_t anew = 0, has = 0, address = 0;
    size_t rows = 0;
    is("open", hidzgula_open(&station, 0x9000000000000001u, OWN, 255, 16), HIDZGULA_DONE);
    claim(0xF000000000000001u, OWN);
    row_is(0, 0xF000000000000001u, OWN);
    claim(0xA1, 1);
    is("no room", hidzgula_make_room(&station, 2, &anew), HIDZGULA_DONE);
    hidzgula_rows(&station, &rows);
    is("begun anew with the other one", anew * 256u + rows, 257);
    row_is(0, 0xA1, 1);
    hidzgula_held(&station, &has, &address);
    is("its own address", has * 256u + address, 256u + OWN);
    hidzgula_close(&station);
}

/* each request for memory refused in turn: nothing changes, and the next try does it */
static void refused_in_turn(void)
{
    size_t rows = 0, one = 0;
    uint32_t status = HIDZGULA_OUT_OF_MEMORY;
    for (size_t n = 1; status == HIDZGULA_OUT_OF_MEMORY; n++) {
        uint8_t anew = 7;
        const size_t before = held;
        uint64_t count = 7;
        four_names();
        refused = requests + n;
        status = hidzgula_make_room(&station, 4, &anew);
        refused = 0;
        if (status == HIDZGULA_OUT_OF_MEMORY) {
            one++;
            hidzgula_rows(&station, &rows);
            hidzgula_entries(&station, 0xA1, HIDZGULA_DM1, &count);
            is("refused, nothing changed", anew * 256u + rows * 16 + count, 7 * 256u + 4 * 16 + 1);
            is("made again", hidzgula_make_room(&station, 4, &anew), HIDZGULA_DONE);
        }
        is("begun anew", anew, 1);
        hidzgula_close(&station);
        is("what is left of memory", held, before);
    }
    is("then it is done", status, HIDZGULA_DONE);
    is("requests were refused", one > 1, 1);
}

static void refusals(void)
{
    uint8_t anew = 7;
    is("none at most", hidzgula_make_room(&station, 0, &anew), HIDZGULA_BAD_SETTING);
    is("none at most", hidzgula_live_make_room(&live, 0, &anew), HIDZGULA_BAD_SETTING);
    is("none at most", hidzgula_listener_make_room(&listener, 0, &anew), HIDZGULA_BAD_SETTING);
    is("no station", hidzgula_make_room(&station, 1, &anew), HIDZGULA_NO_STATION);
    is("no live station", hidzgula_live_make_room(&live, 1, &anew), HIDZGULA_NO_STATION);
    is("no listener", hidzgula_listener_make_room(&listener, 1, &anew), HIDZGULA_NO_LISTENER);
    is("open", hidzgula_open(&station, 0x10, OWN, 255, 16), HIDZGULA_DONE);
    claim(1, OWN);
    is("lost its address, and has room", hidzgula_make_room(&station, 2, &anew), HIDZGULA_DONE);
    is("nothing changed", anew, 0);
    anew = 7;
    is("lost its address", hidzgula_make_room(&station, 1, &anew), HIDZGULA_NOT_HELD);
    is("refused, nothing is written", anew, 7);
    hidzgula_close(&station);
}

/* not while an order is open; then the station claims again, and its verdict and what is shared stay */
static void live_anew(void)
{
    const hidzgula_live_settings settings = HIDZGULA_USUAL_LIVE_SETTINGS;
    const uint8_t stronger[8] = { 1 }, name[8] = { 0xA1 }, other[8] = { 0xA2 };
    hidzgula_verdict verdict;
    hidzgula_frame frame;
    uint8_t anew = 7, has = 0, address = 0;
    size_t rows = 0;
    is("open", hidzgula_live_open(&live, 0x1000000000000001u, OWN, &settings), HIDZGULA_DONE);
    while (hidzgula_live_next(&live, 0, &frame, &has) == HIDZGULA_DONE && has) continue;
    hidzgula_live_hear(&live, 0x18EEFF01, name, 8, 1000, &change);
    hidzgula_live_hear(&live, 0x18EEFFFE, other, 8, 1000, &change);
    is("share", hidzgula_live_share(&live, 65260), HIDZGULA_DONE);
    is("an order", hidzgula_live_ask(&live, 0xA1, HIDZGULA_PGN_DM1), HIDZGULA_DONE);
    is("while it is open", hidzgula_live_make_room(&live, 2, &anew), HIDZGULA_ORDER_OPEN);
    is("refused, nothing is written", anew, 7);
    is("with room", hidzgula_live_make_room(&live, 3, &anew), HIDZGULA_DONE);
    is("nothing changed", anew, 0);
    is("it is ended", hidzgula_live_end(&live, 2000), HIDZGULA_DONE);
    is("begun anew", hidzgula_live_make_room(&live, 2, &anew), HIDZGULA_DONE);
    is("begun anew", anew, 1);
    is("its verdict", hidzgula_live_verdict(&live, &verdict), HIDZGULA_DONE);
    is("stays", verdict.what, HIDZGULA_CUT_OFF);
    hidzgula_live_rows(&live, &rows);
    is("one holds an address", rows, 1);
    hidzgula_live_held(&live, &has, &address);
    is("its own address", has * 256u + address, 256u + OWN);
    is("it claims again", hidzgula_live_next(&live, 3000, &frame, &has), HIDZGULA_DONE);
    is("it claims again", has ? frame.id : 0, 0x18EEFF00u | OWN);
    is("what is shared stays", hidzgula_live_shared_ask(&live, 1, 65260), HIDZGULA_DONE);
    hidzgula_live_hear(&live, 0x18EEFF00 | OWN, stronger, 8, 4000, &change);
    anew = 7;
    is("lost its address", hidzgula_live_make_room(&live, 2, &anew), HIDZGULA_NOT_HELD);
    is("refused, nothing is written", anew, 7);
    hidzgula_live_close(&live);
}

int main(int argc, char **argv)
{
    const size_t frames = argc > 1 ? strtoul(argv[1], NULL, 10) : 1000000;
    refusals();
    what_is_known();
    own_address();
    refused_in_turn();
    live_anew();
    station_at(1000, 16, frames);
    station_at(64, 16, frames / 10);
    live_at(1000, 16, frames);
    listener_at(1000, 16, frames);
    listener_at(64, 16, frames / 10);
    full_lists(false, 100, 16);
    full_lists(true, 100, 16);
    all_under_way(false);
    all_under_way(true);
    return sums();
}
