/* Reads a candump log from standard input, as the program's `watch` does: by a listener, which hears the messages between any two addresses
 * and takes no part. Writes what each frame changed as it comes, with the time in the log; at the end a line for each NAME with its address, and
 * its messages in order, equal ones in a row on one line: lamps and flashes, the codes as SPN/FMI/count, and what could not be read; then the
 * same for each address that sent messages before a NAME claimed it. */
#include "hidzgula_station.h"

#include <inttypes.h>
#include <stdio.h>
#include <string.h>

enum { ROOM = 1 << 16, FRAMES = 1 << 12, LONGEST = 4099 };

static hidzgula_listener listener = HIDZGULA_EMPTY;

/* the codes of a message, each after a space, or " -" */
static void codes_text(const hidzgula_who *who, uint8_t kind, uint64_t place, size_t codes, char *to, size_t room)
{
    hidzgula_code_out code = { 0, 0, 0 };
    size_t used = (size_t)snprintf(to, room, "%s", codes ? "" : " -");
    for (size_t i = 0; i < codes && used < room; i++) {
        hidzgula_listener_code(&listener, who, kind, place, i, &code);
        used += (size_t)snprintf(to + used, room - used, " %" PRIu32 "/%u/%u", code.spn, code.fmi, code.count);
    }
}

/* what of a message could not be read, or nothing */
static void unread_text(const hidzgula_sent_out *entry, char *to, size_t room)
{
    const struct {
        unsigned count;
        const char *one, *several;
    } parts[] = { { entry->padding, "group of padding", "groups of padding" }, { entry->zeros, "group of zeros", "groups of zeros" },
        { entry->older, "code of an older conversion method", "codes of an older conversion method" },
        { entry->bytes_behind, "byte behind the last code", "bytes behind the last code" } };
    size_t used = 0;
    to[0] = 0;
    for (size_t i = 0; i < sizeof parts / sizeof parts[0]; i++)
        if (parts[i].count)
            used += (size_t)snprintf(to + used, room - used, "%s%u %s", used ? ", " : "; not read: ", parts[i].count, parts[i].count == 1 ? parts[i].one : parts[i].several);
    if (entry->bytes_missing) snprintf(to + used, room - used, "; %u of 8 bytes missing", entry->bytes_missing);
}

static void entry_text(const hidzgula_who *who, uint8_t kind, uint64_t place, char *to, size_t room)
{
    hidzgula_sent_out entry;
    memset(&entry, 0, sizeof entry);
    hidzgula_listener_entry(&listener, who, kind, place, &entry);
    size_t used = (size_t)snprintf(to, room, "%02X%02X", entry.lamps, entry.flashes);
    codes_text(who, kind, place, entry.codes, to + used, room - used);
    used = strlen(to);
    unread_text(&entry, to + used, room - used);
}

/* the lamps that are on, in words */
static void lamps_text(uint8_t lamps, char *to, size_t room)
{
    static const char *const names[] = { "mil", "stop", "amber", "protect" };
    size_t used = 0;
    snprintf(to, room, "no lamp");
    for (int i = 0; i < 4; i++)
        if ((lamps >> (6 - 2 * i) & 3) == 1) used += (size_t)snprintf(to + used, room - used, "%s%s", used ? ", " : "", names[i]);
}

static void who_text(const hidzgula_who *who, const char *end, char *to, size_t room)
{
    if (who->has_name) snprintf(to, room, "%016" PRIX64, who->name);
    else if (who->gaps) snprintf(to, room, "address %u, no claim seen since gap %" PRIu64 "%s", who->address, who->gaps, end);
    else snprintf(to, room, "address %u, no claim seen%s", who->address, end);
}

/* the newest message of a list, where it says something else than the one before, or went elsewhere */
static void write_newest(const char *time, const hidzgula_heard *heard)
{
    static char text[2][16384], lamps[64], unit[64], unread[256];
    hidzgula_sent_out entry, before;
    uint64_t count = 0;
    memset(&entry, 0, sizeof entry);
    memset(&before, 0, sizeof before);
    hidzgula_listener_entries(&listener, &heard->who, heard->kind, &count);
    hidzgula_listener_entry(&listener, &heard->who, heard->kind, count - 1, &entry);
    if (count > 1) {
        hidzgula_listener_entry(&listener, &heard->who, heard->kind, count - 2, &before);
        entry_text(&heard->who, heard->kind, count - 1, text[0], sizeof text[0]);
        entry_text(&heard->who, heard->kind, count - 2, text[1], sizeof text[1]);
        if (before.to == entry.to && strcmp(text[0], text[1]) == 0) return;
    }
    lamps_text(entry.lamps, lamps, sizeof lamps);
    who_text(&heard->who, ":", unit, sizeof unit);
    codes_text(&heard->who, heard->kind, count - 1, entry.codes, text[0], sizeof text[0]);
    unread_text(&entry, unread, sizeof unread);
    printf("%sdm%u %s %s;%s", time, heard->kind, unit, lamps, text[0]);
    if (entry.to != 255) printf(" to %u", entry.to);
    printf("%s\n", unread);
}

/* a message of several packets that broke: how many of its packets were read, and why it is not whole */
static void write_broken(const char *time, const hidzgula_heard *heard)
{
    static unsigned count;
    char unit[64];
    who_text(&heard->who, "", unit, sizeof unit);
    printf("%sbroken %u: dm%u of %s", time, ++count, heard->kind, unit);
    if (heard->to != 255) printf(" to %u", heard->to);
    printf(", %u of %u packets: ", heard->read, heard->of);
    switch (heard->why) {
    case HIDZGULA_BROKEN_LATE:
        printf("late\n");
        break;
    case HIDZGULA_BROKEN_PACKET:
        printf("packet %u for %u\n", heard->number, heard->read + 1u);
        break;
    case HIDZGULA_BROKEN_LENGTH:
        printf("packet %u not of 8 bytes\n", heard->number);
        break;
    case HIDZGULA_BROKEN_DIFFERS:
        printf("packet %u came again with other bytes\n", heard->number);
        break;
    case HIDZGULA_BROKEN_ABORT:
        printf("abort %u by %u\n", heard->reason, heard->by);
        break;
    case HIDZGULA_BROKEN_ANEW:
        printf("announced anew\n");
        break;
    case HIDZGULA_BROKEN_CLAIM:
        printf("claimed by another\n");
        break;
    }
}

/* each message that a frame broke */
static void write_all_broken(const char *time, const hidzgula_heard *heard)
{
    hidzgula_heard broken;
    for (size_t place = 0; place < heard->broken; place++)
        if (hidzgula_listener_broken(&listener, place, &broken) == HIDZGULA_DONE) write_broken(time, &broken);
}

/* how many messages could not be read at all */
static uint64_t unreadable;

static void write_heard(const char *time, const hidzgula_heard *heard)
{
    switch (heard->what) {
    case HIDZGULA_CLAIMED:
        if (heard->lost) printf("%sunit %016" PRIX64 " has no address\n", time, heard->displaced);
        printf("%sunit %016" PRIX64 " at %u\n", time, heard->who.name, heard->source);
        break;
    case HIDZGULA_GAVE_UP:
        printf("%sunit %016" PRIX64 " has no address\n", time, heard->who.name);
        break;
    case HIDZGULA_ACKNOWLEDGED:
        if (!heard->again) printf("%sack %016" PRIX64 " control %u of %" PRIu32 "\n", time, heard->who.name, heard->control, heard->pgn);
        break;
    case HIDZGULA_LISTED:
        write_newest(time, heard);
        break;
    case HIDZGULA_UNREADABLE:
        printf("%sunread %" PRIu64 "\n", time, ++unreadable);
        break;
    case HIDZGULA_MISSED:
        printf("%smissed %" PRIu32 "\n", time, heard->count);
        break;
    }
    write_all_broken(time, heard);
}

static void write_list(const hidzgula_who *who, uint8_t kind)
{
    static char text[2][16384];
    uint64_t count = 0, times = 0;
    hidzgula_listener_entries(&listener, who, kind, &count);
    for (uint64_t place = 0; place < count; place++) {
        entry_text(who, kind, place, text[place % 2], sizeof text[0]);
        if (times && strcmp(text[0], text[1]) != 0) {
            printf("  dm%u %" PRIu64 "x %s\n", kind, times, text[(place + 1) % 2]);
            times = 0;
        }
        times++;
    }
    if (times) printf("  dm%u %" PRIu64 "x %s\n", kind, times, text[(count + 1) % 2]);
}

static void write_lists(const hidzgula_who *who)
{
    write_list(who, HIDZGULA_DM1);
    write_list(who, HIDZGULA_DM2);
    write_list(who, HIDZGULA_DM6);
}

/* reads the whole lines of a text, and answers how many bytes those have; false where memory was refused */
static bool hear_lines(const char *text, size_t length, size_t *used)
{
    static hidzgula_frame frames[FRAMES];
    static hidzgula_logged logged[FRAMES];
    hidzgula_read read;
    hidzgula_heard heard;
    char time[32] = "";
    for (*used = 0;; *used += read.bytes) {
        hidzgula_read_log(text + *used, length - *used, "", 0, frames, FRAMES, logged, FRAMES, &read);
        /* (hidzgula_listener_take_frames_at takes them all at once; here the newest message is written as it comes) */
        for (size_t i = 0; i < read.frames; i++) {
            uint64_t now = logged[i].time;
            if (hidzgula_listener_take_at(&listener, now, frames[i].id, frames[i].bytes, frames[i].length, &heard) != HIDZGULA_DONE) return false;
            if (now == HIDZGULA_NO_TIME) time[0] = 0;
            else snprintf(time, sizeof time, "%" PRIu64 ".%06" PRIu64 " ", now / 1000000, now % 1000000);
            write_heard(time, &heard);
        }
        if (read.what != HIDZGULA_READ) {
            uint32_t count = read.what == HIDZGULA_READ_BAD ? 1 : read.missed;
            if (hidzgula_listener_missed_at(&listener, HIDZGULA_NO_TIME, count, &heard) != HIDZGULA_DONE) return false;
            write_heard("", &heard);
        }
        if (!read.bytes) return true;
    }
}

int main(void)
{
    static char text[ROOM + 1];
    size_t kept = 0, got, used, rows = 0, units = 0;
    uint64_t missed = 0, unread = 0;
    /* all messages are kept, to be written at the end; a program that only tells of changes would keep the newest two of each list */
    if (hidzgula_listener_open(&listener, UINT32_MAX) != HIDZGULA_DONE) return 1;
    do {
        got = fread(text + kept, 1, ROOM - kept, stdin);
        kept += got;
        if (!got && kept) text[kept++] = '\n'; /* the last line may have no end */
        if (!hear_lines(text, kept, &used)) return 1;
        memmove(text, text + used, kept -= used);
        if (kept > LONGEST) kept = LONGEST; /* of a line that is too long no more is needed */
    } while (got);
    hidzgula_listener_rows(&listener, &rows);
    for (size_t place = 0; place < rows; place++) {
        hidzgula_row_out row;
        if (hidzgula_listener_row(&listener, place, &row) != HIDZGULA_DONE) return 1;
        if (row.has_address) printf("%016" PRIX64 " %u\n", row.name, row.address);
        else printf("%016" PRIX64 " -\n", row.name);
        write_lists(&(hidzgula_who){ .name = row.name, .has_name = 1 });
    }
    hidzgula_listener_units(&listener, &units);
    for (size_t place = 0; place < units; place++) {
        char unit[64];
        hidzgula_who who;
        if (hidzgula_listener_unit(&listener, place, &who) != HIDZGULA_DONE) return 1;
        if (who.has_name) continue;
        who_text(&who, "", unit, sizeof unit);
        printf("%s\n", unit);
        write_lists(&who);
    }
    hidzgula_listener_counts(&listener, &missed, &unread);
    printf("missed %" PRIu64 " unread %" PRIu64, missed, unreadable);
    if (unread > unreadable) printf(" partly %" PRIu64, unread - unreadable);
    printf("\n");
    hidzgula_listener_close(&listener);
    return 0;
}
