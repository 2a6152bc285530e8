/* Frames that are taken in rows. Of the log on standard input, by a station: whatever the room, each frame comes to what hidzgula_take_frame came to for it, a row ends behind the first reply and nowhere else, and at the end the station
 * tells the same. Each refusal in the midst of a row: what was before it is taken, the rest is as it was, and the caller goes on. And
 * each request for memory is refused in turn: the row ends there, the frame is taken by the next one, and the end is the same.
 * Writes a line for each that is otherwise, and then the sums.
 *
 * Linked with --wrap for malloc, realloc and free, which the archive calls. */
#include "log.h"
#include "told.h"
#include "tries.h"

#include <stdlib.h>

void *__real_malloc(size_t size);
void *__real_realloc(void *block, size_t size);
void __real_free(void *block);
void *__wrap_malloc(size_t size);
void *__wrap_realloc(void *block, size_t size);
void __wrap_free(void *block);

static size_t requests, refused_one, live;
static bool counts;

static bool refuse(void) { return counts && ++requests == refused_one; }

void *__wrap_malloc(size_t size)
{
    void *block = refuse() ? NULL : __real_malloc(size);
    if (block) live++;
    return block;
}

void *__wrap_realloc(void *block, size_t size)
{
    void *moved = refuse() ? NULL : __real_realloc(block, size);
    if (moved && !block) live++;
    return moved;
}

void __wrap_free(void *block)
{
    if (block) live--;
    __real_free(block);
}

/* what each frame came to, one by one, and what the station told at the end */
static hidzgula_change changes_wanted[MOST];
static hidzgula_reply replies_wanted[MOST];
static uint64_t told_wanted;

static hidzgula_change changes[MOST + 1];
static hidzgula_reply reply;
static size_t taken;

static bool is_silent(const hidzgula_reply *it) { return !it->withdraw && !it->count; }

static bool same_reply(const hidzgula_reply *one, const hidzgula_reply *other)
{
    if (one->withdraw != other->withdraw || one->count != other->count) return false;
    for (int i = 0; i < one->count; i++) {
        const hidzgula_frame *x = &one->frames[i], *y = &other->frames[i];
        if (x->id != y->id || x->length != y->length || memcmp(x->bytes, y->bytes, x->length) != 0) return false;
    }
    return true;
}

static bool same_change(const hidzgula_change *one, const hidzgula_change *other)
{
    return one->name == other->name && one->displaced == other->displaced && one->pgn == other->pgn && one->count == other->count
        && one->what == other->what && one->address == other->address && one->kind == other->kind && one->control == other->control
        && one->again == other->again && one->has_displaced == other->has_displaced && one->lost == other->lost;
}

static void open_one(hidzgula_station *station)
{
    if (hidzgula_open(station, 1, 248, 255, 40) != HIDZGULA_DONE) abort();
}

static void one_by_one(void)
{
    hidzgula_station station = HIDZGULA_EMPTY;
    open_one(&station);
    for (size_t i = 0; i < frame_count; i++)
        if (hidzgula_take_frame(&station, frames[i].id, frames[i].bytes, frames[i].length, &replies_wanted[i], &changes_wanted[i]) != HIDZGULA_DONE) abort();
    told_wanted = told_by(&station);
    hidzgula_close(&station);
}

/* one row from a place on; what is written and what is not is as it was wanted */
static uint32_t row(hidzgula_station *station, const hidzgula_frame *from, size_t count, size_t room, size_t at)
{
    hidzgula_change unchanged;
    memset(&unchanged, 0xA5, sizeof unchanged);
    memset(changes, 0xA5, sizeof changes);
    memset(&reply, 0xA5, sizeof reply);
    taken = 999999;
    counts = true;
    uint32_t answer = hidzgula_take_frames(station, from, count, changes, room, &reply, &taken);
    counts = false;
    bool well = taken <= count && taken <= room;
    for (size_t i = 0; well && i <= MOST; i++)
        well = i < taken ? same_change(&changes[i], &changes_wanted[at + i]) : memcmp(&changes[i], &unchanged, sizeof unchanged) == 0;
    for (size_t i = 0; well && i + 1 < taken; i++) well = is_silent(&replies_wanted[at + i]);
    if (well) well = taken ? same_reply(&reply, &replies_wanted[at + taken - 1]) : is_silent(&reply);
    is("a row", well, true);
    return answer;
}

static void in_rows(size_t room)
{
    hidzgula_station station = HIDZGULA_EMPTY;
    open_one(&station);
    for (size_t at = 0; at < frame_count; at += taken) {
        is("is done", row(&station, frames + at, frame_count - at, room, at), HIDZGULA_DONE);
        is("ends where it should", taken == room || at + taken == frame_count || !is_silent(&reply), true);
        if (!taken) abort();
    }
    is("the end", told_by(&station) == told_wanted, true);
    hidzgula_close(&station);
}

/* a frame that is refused for this, at a place of a row */
static void refused_at(size_t place, uint32_t id, uint8_t length, uint32_t wanted)
{
    static hidzgula_frame some[9];
    hidzgula_station station = HIDZGULA_EMPTY;
    open_one(&station);
    memcpy(some, frames, sizeof some);
    some[place].id = id;
    some[place].length = length;
    size_t at = 0;
    uint32_t answer = HIDZGULA_DONE;
    for (; answer == HIDZGULA_DONE && at < 9; at += taken) answer = row(&station, some + at, 9 - at, 9, at);
    is("is refused for it", answer, wanted);
    is("what is before it is taken", at, place);
    some[place] = frames[place];
    for (; at < 9; at += taken) is("goes on", row(&station, some + at, 9 - at, 9, at), HIDZGULA_DONE);
    hidzgula_close(&station);
}

static void without_frames(void)
{
    hidzgula_station station = HIDZGULA_EMPTY;
    hidzgula_reply filled;
    static const hidzgula_frame bad = { .id = 0xFFFFFFFF, .length = 255, .bytes = { 0 } };
    open_one(&station);
    is("no frames", row(&station, frames, 0, 9, 0), HIDZGULA_DONE);
    is("no room", row(&station, frames, 9, 0, 0), HIDZGULA_DONE);
    is("neither", row(&station, &bad, 0, 0, 0), HIDZGULA_DONE);
    is("no room for a bad one", row(&station, &bad, 1, 0, 0), HIDZGULA_DONE);
    is("both too large and too long", row(&station, &bad, 1, 1, 0), HIDZGULA_ID_TOO_LARGE);
    is("is not taken", taken, 0);
    hidzgula_close(&station);
    memset(&filled, 0xA5, sizeof filled);
    memset(&reply, 0xA5, sizeof reply);
    memset(changes, 0xA5, sizeof changes);
    taken = 17;
    is("closed", hidzgula_take_frames(&station, frames, 3, changes, 3, &reply, &taken), HIDZGULA_NO_STATION);
    is("closed, no frames", hidzgula_take_frames(&station, frames, 0, changes, 3, &reply, &taken), HIDZGULA_NO_STATION);
    is("closed, a bad one", hidzgula_take_frames(&station, &bad, 1, changes, 3, &reply, &taken), HIDZGULA_NO_STATION);
    is("writes nothing", taken == 17 && memcmp(&reply, &filled, sizeof reply) == 0 && ((unsigned char *)changes)[0] == 0xA5, true);
}

/* all in one row, a request for memory being refused; how often the row was cut short by it */
static size_t with_one_refused(size_t one)
{
    hidzgula_station station = HIDZGULA_EMPTY;
    size_t cut = 0;
    open_one(&station);
    requests = 0;
    refused_one = one;
    for (size_t at = 0; at < frame_count; at += taken) {
        uint32_t answer = row(&station, frames + at, frame_count - at, MOST, at);
        if (answer == HIDZGULA_DONE) continue;
        is("for want of memory", answer, HIDZGULA_OUT_OF_MEMORY);
        cut++;
    }
    refused_one = 0;
    is("the end", told_by(&station) == told_wanted, true);
    hidzgula_close(&station);
    is("all is given back", live, 0);
    return cut;
}

static void refuse_each(void)
{
    is("is refused nothing", with_one_refused(0), 0);
    size_t total = requests;
    is("takes memory", total > 30, true);
    for (size_t one = 1; one <= total; one++) is("is refused once", with_one_refused(one), 1);
}

int main(void)
{
    read_frames();
    one_by_one();
    for (size_t room = 1; room < 5; room++) in_rows(room);
    in_rows(64);
    in_rows(MOST);
    for (size_t place = 0; place < 9; place += 4) {
        refused_at(place, 1u << 29, 8, HIDZGULA_ID_TOO_LARGE);
        refused_at(place, 0xFFFFFFFF, 9, HIDZGULA_ID_TOO_LARGE);
        refused_at(place, (1u << 29) - 1, 9, HIDZGULA_TOO_LONG);
        refused_at(place, 0, 255, HIDZGULA_TOO_LONG);
    }
    without_frames();
    refuse_each();
    return sums();
}
