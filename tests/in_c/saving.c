/* What is saved of a station and restored to another one, over random traffic: the same NAMEs in the same order, their acknowledgments, the newest
 * messages of each list, and no addresses. What is saved anew of that one is the same. A live station that heard the same saves the same. An array
 * that is too short, each request for memory refused in turn, a station that holds no address, one with many NAMEs, and a message behind it all, which
 * is under no NAME until one claims. Writes a line for each that is otherwise, and then the sums.
 *
 * Linked with --wrap for malloc, realloc and free, which the archive calls. */
#include "tries.h"

#include <stdlib.h>

void *__real_malloc(size_t size);
void *__real_realloc(void *block, size_t size);
void __real_free(void *block);

static size_t requests, refused_one, blocks;

static bool refuse(void) { return ++requests == refused_one; }

void *__wrap_malloc(size_t size)
{
    void *block = refuse() ? NULL : __real_malloc(size);
    if (block) blocks++;
    return block;
}

void *__wrap_realloc(void *block, size_t size)
{
    void *moved = refuse() ? NULL : __real_realloc(block, size);
    if (moved && !block) blocks++;
    return moved;
}

void __wrap_free(void *block)
{
    if (block) blocks--;
    __real_free(block);
}

/* ---- random traffic, to a station and to a live one */

static uint64_t state;

static uint32_t below(uint32_t most)
{
    state = state * 6364136223846793005u + 1442695040888963407u;
    return (uint32_t)((state >> 33) % most);
}

enum { NAMES = 6, ADDRESSES = 5, MOST = 1 << 16 };
enum { OWN_NAME = 0x51 };

static hidzgula_station station;
static hidzgula_live live;
static uint8_t own;

static void hears(uint32_t id, const uint8_t *bytes, size_t length)
{
    hidzgula_reply reply;
    hidzgula_change change;
    hidzgula_frame frame;
    uint8_t has = 1;
    is("takes", hidzgula_take_frame(&station, id, bytes, length, &reply, NULL), HIDZGULA_DONE);
    is("hears", hidzgula_live_hear(&live, id, bytes, length, 0, &change), HIDZGULA_DONE);
    while (has) is("next", hidzgula_live_next(&live, 1000000, &frame, &has), HIDZGULA_DONE);
}

static void claims(uint8_t source, uint64_t name)
{
    uint8_t bytes[8];
    for (int i = 0; i < 8; i++) bytes[i] = (uint8_t)(name >> 8 * i);
    hears(0x18EEFF00u | source, bytes, 8);
}

static void acknowledges(uint8_t source)
{
    const uint8_t to_all[8] = { (uint8_t)below(5), 0xFF, 0xFF, 0xFF, below(3) ? own : 99, (uint8_t)below(256), (uint8_t)below(256), (uint8_t)below(256) };
    hears(0x18E80000u | (uint32_t)(below(2) ? 0xFF : own) << 8 | source, to_all, 8);
}

/* a message of so many codes, by a frame or a broadcast; some are cut off, and some cannot be read */
static void sends(uint8_t source, uint32_t codes)
{
    static const uint32_t groups[] = { HIDZGULA_PGN_DM1, HIDZGULA_PGN_DM2, HIDZGULA_PGN_DM6 };
    const uint32_t group = groups[below(3)];
    uint8_t payload[1785 + 7];
    memset(payload, 0xFF, sizeof payload);
    payload[0] = (uint8_t)below(256);
    payload[1] = (uint8_t)below(256);
    if (codes == 0 && below(2)) memset(payload + 2, 0, 4);
    for (uint32_t i = 0; i < 4 * codes; i++) payload[2 + i] = (uint8_t)(i % 4 == 3 ? below(129) : below(256));
    const size_t size = codes < 2 ? 8 : 2 + 4 * codes;
    if (size == 8) {
        hears(0x18000000u | group << 8 | source, payload, 8);
        return;
    }
    const uint8_t packets = (uint8_t)((size + 6) / 7);
    const uint8_t bam[8] = { 0x20, (uint8_t)size, (uint8_t)(size >> 8), packets, 0xFF, (uint8_t)group, (uint8_t)(group >> 8), (uint8_t)(group >> 16) };
    hears(0x1CECFF00u | source, bam, 8);
    for (uint32_t number = 1; number < packets + (below(8) ? 1u : 0u); number++) {
        uint8_t packet[8] = { (uint8_t)number };
        memcpy(packet + 1, payload + 7 * (number - 1), 7);
        hears(0x1CEBFF00u | source, packet, 8);
    }
}

static void opens(uint32_t keep, uint8_t address)
{
    const hidzgula_live_settings settings = { 50000, 0, keep, 255 };
    own = address;
    station = (hidzgula_station)HIDZGULA_EMPTY;
    live = (hidzgula_live)HIDZGULA_EMPTY;
    is("opens", hidzgula_open(&station, OWN_NAME, address, 255, keep), HIDZGULA_DONE);
    is("opens live", hidzgula_live_open(&live, OWN_NAME, address, &settings), HIDZGULA_DONE);
}

static void closes(void)
{
    hidzgula_close(&station);
    hidzgula_live_close(&live);
}

static void random_traffic(uint32_t steps)
{
    for (uint32_t i = 0; i < steps; i++) {
        const uint8_t source = (uint8_t)(100 + below(ADDRESSES));
        const uint32_t what = below(20);
        if (i < ADDRESSES || what < 3) {
            claims(source, 0xA000000000000000u + below(NAMES));
        } else if (what < 4) {
            claims(254, 0xA000000000000000u + below(NAMES));
        } else if (what < 7) {
            acknowledges(source);
        } else if (what < 8) {
            hidzgula_reply reply;
            hidzgula_change change;
            is("a gap", hidzgula_take_gap(&station, 3, &reply, NULL), HIDZGULA_DONE);
            is("misses", hidzgula_live_missed(&live, 3, 0, &change), HIDZGULA_DONE);
        } else {
            sends(source, below(4) ? below(4) : below(30) ? below(20) : 400 + below(46));
        }
    }
}

/* ---- what two stations show */

static void same_list(hidzgula_station *anew, uint64_t name, uint8_t kind, uint32_t keep)
{
    uint64_t count = 0, kept = 0;
    is("entries", hidzgula_entries(&station, name, kind, &count), HIDZGULA_DONE);
    is("entries anew", hidzgula_entries(anew, name, kind, &kept), HIDZGULA_DONE);
    is("so many are kept", kept, count < keep ? count : keep);
    for (uint64_t i = 0; i < kept; i++) {
        hidzgula_entry_out one, other;
        hidzgula_code_out code, again;
        is("an entry", hidzgula_entry(&station, name, kind, count - kept + i, &one), HIDZGULA_DONE);
        is("an entry anew", hidzgula_entry(anew, name, kind, i, &other), HIDZGULA_DONE);
        is("its lamps and codes", one.lamps == other.lamps && one.flashes == other.flashes && one.codes == other.codes, true);
        for (size_t j = 0; j < one.codes && j < other.codes; j++) {
            is("a code", hidzgula_code(&station, name, kind, count - kept + i, j, &code), HIDZGULA_DONE);
            is("a code anew", hidzgula_code(anew, name, kind, i, j, &again), HIDZGULA_DONE);
            is("the same code", code.spn == again.spn && code.fmi == again.fmi && code.count == again.count, true);
        }
    }
}

static void shows_same(hidzgula_station *anew, uint32_t keep)
{
    size_t rows = 0, rows_anew = 0;
    uint64_t missed = 0, unread = 1;
    uint8_t has = 0, address = 0;
    is("rows", hidzgula_rows(&station, &rows), HIDZGULA_DONE);
    is("rows anew", hidzgula_rows(anew, &rows_anew), HIDZGULA_DONE);
    is("as many rows", rows_anew, rows);
    for (size_t i = 0; i < rows; i++) {
        hidzgula_row_out row = { 0, 0, 0, 0, 0, 0 }, other = { 0, 0, 0, 0, 0, 0 };
        is("a row", hidzgula_row(&station, i, &row), HIDZGULA_DONE);
        is("a row anew", hidzgula_row(anew, i, &other), HIDZGULA_DONE);
        is("the same NAME", other.name == row.name, true);
        is("no address", other.has_address, 0);
        is("the same acknowledgment", other.has_ack == row.has_ack && other.ack_control == row.ack_control && other.ack_pgn == row.ack_pgn, true);
        same_list(anew, row.name, HIDZGULA_DM1, keep);
        same_list(anew, row.name, HIDZGULA_DM2, keep);
        same_list(anew, row.name, HIDZGULA_DM6, keep);
    }
    is("counts", hidzgula_counts(anew, &missed, &unread), HIDZGULA_DONE);
    is("one missed", missed, 1);
    is("none unread", unread, 0);
    is("held", hidzgula_held(anew, &has, &address), HIDZGULA_DONE);
    is("the same address", has == 1 && address == own, true);
}

/* ---- saved and restored */

static hidzgula_frame saved[MOST], again[MOST];

static bool same_frames(size_t count)
{
    for (size_t i = 0; i < count; i++)
        if (saved[i].id != again[i].id || saved[i].length != again[i].length || memcmp(saved[i].bytes, again[i].bytes, 8) != 0) return false;
    return true;
}

static size_t saves(void)
{
    size_t count = 0, told = 0;
    const uint32_t status = hidzgula_save(&station, saved, 0, &count);
    is("how many", status, count ? HIDZGULA_NO_ROOM : HIDZGULA_DONE);
    memset(saved, 0xA5, sizeof saved);
    memset(again, 0xA5, sizeof again);
    if (count) is("one too few", hidzgula_save(&station, saved, count - 1, &told), HIDZGULA_NO_ROOM);
    is("nothing is written", memcmp(saved, again, sizeof saved) == 0, true);
    is("saves", hidzgula_save(&station, saved, count ? count : MOST, &told), HIDZGULA_DONE);
    is("as many", told, count);
    is("nothing behind", memcmp(saved + count, again + count, (MOST - count) * sizeof *saved) == 0, true);
    is("saves live", hidzgula_live_save(&live, again, MOST, &told), HIDZGULA_DONE);
    is("as many live", told, count);
    is("the same frames live", same_frames(count), true);
    return count;
}

static void restores(size_t count, uint32_t keep)
{
    hidzgula_station anew = HIDZGULA_EMPTY;
    hidzgula_live live_anew = HIDZGULA_EMPTY;
    const hidzgula_live_settings settings = { 50000, 250000, keep, 255 };
    hidzgula_frame frame;
    uint8_t has = 0;
    size_t told = 0;
    is("opens anew", hidzgula_open(&anew, OWN_NAME, own, 7, keep), HIDZGULA_DONE);
    is("restores", hidzgula_restore(&anew, saved, count), HIDZGULA_DONE);
    shows_same(&anew, keep);
    is("saves anew", hidzgula_save(&anew, again, MOST, &told), HIDZGULA_DONE);
    is("the same frames anew", told == count && same_frames(count), true);
    hidzgula_close(&anew);
    is("opens live anew", hidzgula_live_open(&live_anew, OWN_NAME, own, &settings), HIDZGULA_DONE);
    is("restores live", hidzgula_live_restore(&live_anew, saved, count, 0), HIDZGULA_DONE);
    is("saves live anew", hidzgula_live_save(&live_anew, again, MOST, &told), HIDZGULA_DONE);
    is("the same frames live anew", told == count && same_frames(count), true);
    is("its claim goes", hidzgula_live_next(&live_anew, 0, &frame, &has), HIDZGULA_DONE);
    is("its claim", frame.id, 0x18EEFF00u | own);
    is("a request goes", hidzgula_live_next(&live_anew, 250000, &frame, &has), HIDZGULA_DONE);
    is("a request for claims", has == 1 && frame.id == (0x18EAFF00u | own) && frame.bytes[1] == 0xEE, true);
    hidzgula_live_close(&live_anew);
}

static void try_random(uint64_t seed)
{
    static const uint32_t keeps[] = { 0, 1, 3, 16, UINT32_MAX };
    static const uint8_t addresses[] = { 0, 1, 248, 253 };
    state = seed;
    const uint32_t keep = keeps[below(5)];
    opens(keep, addresses[below(4)]);
    random_traffic(below(300));
    restores(saves(), keep);
    closes();
}

/* each request for memory of a save and of a restore refused in turn: nothing is written, the station shows what it showed, no block is kept */
static void try_memory(void)
{
    size_t count = 0, told = 0, held;
    state = 12345;
    opens(16, 248);
    random_traffic(60);
    is("saves", hidzgula_save(&station, saved, MOST, &count), HIDZGULA_DONE);
    held = blocks;
    for (size_t one = 1;; one++) {
        memset(again, 0xA5, sizeof *again * (count + 1));
        told = 77;
        requests = 0;
        refused_one = one;
        const uint32_t status = one % 2 ? hidzgula_save(&station, again, MOST, &told) : hidzgula_live_save(&live, again, MOST, &told);
        refused_one = 0;
        is("no block is kept", blocks, held);
        if (status == HIDZGULA_DONE && requests < one) break;
        is("memory is refused", status, HIDZGULA_OUT_OF_MEMORY);
        is("nothing is written", told == 77 && again[0].id == 0xA5A5A5A5u, true);
    }
    hidzgula_station anew = HIDZGULA_EMPTY;
    for (size_t one = 1;; one++) {
        is("opens anew", hidzgula_open(&anew, OWN_NAME, own, 255, 16), HIDZGULA_DONE);
        requests = 0;
        refused_one = one;
        const uint32_t status = hidzgula_restore(&anew, saved, count);
        refused_one = 0;
        if (status == HIDZGULA_DONE) shows_same(&anew, 16);
        else is("memory is refused at the restore", status, HIDZGULA_OUT_OF_MEMORY);
        hidzgula_close(&anew);
        is("no block is kept", blocks, held);
        if (status == HIDZGULA_DONE) break;
    }
    closes();
    is("all is given back", blocks, 0);
}

/* who is refused, and frames that were never saved */
static void try_refused(void)
{
    const hidzgula_frame large = { 1u << 29, 0, { 0 } }, longer = { 0, 9, { 0 } };
    size_t count = 77;
    own = 248;
    station = (hidzgula_station)HIDZGULA_EMPTY;
    live = (hidzgula_live)HIDZGULA_EMPTY;
    is("no station", hidzgula_save(&station, saved, MOST, &count), HIDZGULA_NO_STATION);
    is("no live station", hidzgula_live_save(&live, saved, MOST, &count), HIDZGULA_NO_STATION);
    is("none to restore to", hidzgula_restore(&station, saved, 0), HIDZGULA_NO_STATION);
    is("none to restore to, live", hidzgula_live_restore(&live, saved, 0, 0), HIDZGULA_NO_STATION);
    opens(16, 248);
    is("too large", hidzgula_restore(&station, &large, 1), HIDZGULA_ID_TOO_LARGE);
    is("too long", hidzgula_restore(&station, &longer, 1), HIDZGULA_TOO_LONG);
    is("too large, live", hidzgula_live_restore(&live, &large, 1, 0), HIDZGULA_ID_TOO_LARGE);
    is("too long, live", hidzgula_live_restore(&live, &longer, 1, 0), HIDZGULA_TOO_LONG);
    claims(248, 3);
    is("no address", hidzgula_save(&station, saved, MOST, &count), HIDZGULA_NOT_HELD);
    is("no address, live", hidzgula_live_save(&live, saved, MOST, &count), HIDZGULA_NOT_HELD);
    is("nothing is counted", count, 77);
    closes();
}

/* somebody else claims under the station's NAME, at another address: that NAME has a row, and its messages are kept (a live station passes them over) */
static void try_own_name(void)
{
    const uint8_t claim[8] = { OWN_NAME }, dm6[8] = { 4, 0xFF, 1, 0, 3, 1, 0xFF, 0xFF };
    hidzgula_station anew = HIDZGULA_EMPTY;
    hidzgula_reply reply;
    size_t count = 0;
    own = 248;
    station = (hidzgula_station)HIDZGULA_EMPTY;
    is("opens", hidzgula_open(&station, OWN_NAME, 248, 255, 16), HIDZGULA_DONE);
    is("a claim", hidzgula_take_frame(&station, 0x18EEFF05, claim, 8, &reply, NULL), HIDZGULA_DONE);
    is("a message", hidzgula_take_frame(&station, 0x18FECF05, dm6, 8, &reply, NULL), HIDZGULA_DONE);
    is("saves", hidzgula_save(&station, saved, MOST, &count), HIDZGULA_DONE);
    is("two frames", count, 2);
    is("opens anew", hidzgula_open(&anew, OWN_NAME, 248, 255, 16), HIDZGULA_DONE);
    is("restores", hidzgula_restore(&anew, saved, count), HIDZGULA_DONE);
    shows_same(&anew, 16);
    hidzgula_close(&anew);
    hidzgula_close(&station);
}

/* a station that moved: it is opened anew at the address that it holds now */
static void try_moved(void)
{
    const uint64_t name = 1ull << 63 | 9; /* it may choose another address */
    const uint8_t lower[8] = { 1 }, unit[8] = { 7 }, dm1[8] = { 4, 0xFF, 1, 0, 3, 1, 0xFF, 0xFF };
    hidzgula_station anew = HIDZGULA_EMPTY;
    hidzgula_reply reply;
    size_t count = 0;
    uint8_t has = 0;
    station = (hidzgula_station)HIDZGULA_EMPTY;
    is("opens", hidzgula_open(&station, name, 10, 255, 16), HIDZGULA_DONE);
    is("a unit", hidzgula_take_frame(&station, 0x18EEFF05, unit, 8, &reply, NULL), HIDZGULA_DONE);
    is("a message", hidzgula_take_frame(&station, 0x18FECA05, dm1, 8, &reply, NULL), HIDZGULA_DONE);
    is("it loses its address", hidzgula_take_frame(&station, 0x18EEFF0A, lower, 8, &reply, NULL), HIDZGULA_DONE);
    is("it moved", hidzgula_held(&station, &has, &own), HIDZGULA_DONE);
    is("to a free one", has == 1 && own >= 128, true);
    const uint8_t ack[8] = { 1, 0xFF, 0xFF, 0xFF, own, 0xCC, 0xFE, 0 };
    is("an acknowledgment", hidzgula_take_frame(&station, 0x18E8FF05, ack, 8, &reply, NULL), HIDZGULA_DONE);
    is("saves", hidzgula_save(&station, saved, MOST, &count), HIDZGULA_DONE);
    is("four frames", count, 4);
    is("opens anew", hidzgula_open(&anew, name, own, 255, 16), HIDZGULA_DONE);
    is("restores", hidzgula_restore(&anew, saved, count), HIDZGULA_DONE);
    shows_same(&anew, 16);
    hidzgula_close(&anew);
    hidzgula_close(&station);
}

/* many NAMEs, which come back by their claims; a message before the claim is under none of them */
static void try_many(void)
{
    const uint8_t dm1[8] = { 4, 0xFF, 1, 0, 3, 1, 0xFF, 0xFF };
    hidzgula_station anew = HIDZGULA_EMPTY;
    hidzgula_reply reply;
    hidzgula_change change;
    uint64_t entries = 0;
    opens(16, 0);
    for (uint64_t i = 0; i < 3000; i++) {
        claims((uint8_t)(1 + i % 250), i << 32 | 7);
        hears(0x18FECA01u + (uint32_t)(i % 250), dm1, 8);
    }
    const size_t count = saves();
    is("two frames a NAME", count, 6000);
    restores(count, 16);
    is("opens anew", hidzgula_open(&anew, OWN_NAME, 0, 255, 16), HIDZGULA_DONE);
    is("restores", hidzgula_restore(&anew, saved, count), HIDZGULA_DONE);
    for (uint32_t a = 1; a <= 253; a++) {
        is("a message", hidzgula_take_frame(&anew, 0x18FECA00u | a, dm1, 8, &reply, &change), HIDZGULA_DONE);
        is("of nobody", change.what, HIDZGULA_UNOWNED);
    }
    const uint8_t claim[8] = { 7, 0, 0, 0, 9, 0, 0, 0 };
    is("a claim", hidzgula_take_frame(&anew, 0x18EEFF64, claim, 8, &reply, &change), HIDZGULA_DONE);
    is("a message", hidzgula_take_frame(&anew, 0x18FECA64, dm1, 8, &reply, &change), HIDZGULA_DONE);
    is("is listed", change.what, HIDZGULA_LISTED);
    is("entries", hidzgula_entries(&anew, 9ull << 32 | 7, HIDZGULA_DM1, &entries), HIDZGULA_DONE);
    is("behind what was restored", entries, 2);
    hidzgula_close(&anew);
    closes();
}

int main(void)
{
    for (uint64_t seed = 1; seed <= 60; seed++) try_random(seed);
    try_memory();
    try_refused();
    try_own_name();
    try_moved();
    try_many();
    return sums();
}
