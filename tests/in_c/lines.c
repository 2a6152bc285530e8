/* Lines of a log that are read in rows. Of the log on standard input: whatever the room and wherever the text is cut, the frames are those that
 * sscanf finds, each in its line and at its time. Then lines of each form, with what they tell; and that nothing is written behind what was
 * read. Writes a line for each that is otherwise, and then the sums. */
#include "tries.h"

#include <inttypes.h>
#include <stdlib.h>

enum { MOST = 1 << 13 };

static hidzgula_frame frames[MOST];
static size_t frame_count;
static char text[1 << 20];
static size_t length;
static hidzgula_frame read_frames_of[MOST + 1];
static hidzgula_logged logged[MOST + 1];
static uint64_t times[MOST], lines_of[MOST];
static hidzgula_read read_so_far;

/* the frames of the text by sscanf, with the line and the time of each */
static void find_frames(void)
{
    uint64_t line = 0;
    for (const char *at = text; *at; at = strchr(at, '\n') + 1) {
        uint64_t seconds, micros;
        char digits[17] = "";
        hidzgula_frame *frame = &frames[frame_count];
        line++;
        memset(frame, 0, sizeof *frame);
        if (sscanf(at, "(%" SCNu64 ".%" SCNu64 ") %*s %8" SCNx32 "#%16[0-9A-F]", &seconds, &micros, &frame->id, digits) < 3 || frame->id >= 1u << 29) continue;
        for (; digits[2 * frame->length]; frame->length++) sscanf(digits + 2 * frame->length, "%2" SCNx8, &frame->bytes[frame->length]);
        times[frame_count] = seconds * 1000000 + micros;
        lines_of[frame_count++] = line;
    }
}

static void read_from(const char *from, size_t count, const char *bus, size_t room, size_t logged_room)
{
    memset(read_frames_of, 0xA5, sizeof read_frames_of);
    memset(logged, 0xA5, sizeof logged);
    memset(&read_so_far, 0xA5, sizeof read_so_far);
    hidzgula_read_log(from, count, bus, strlen(bus), read_frames_of, room, logged, logged_room, &read_so_far);
    is("is within", read_so_far.bytes <= count && read_so_far.frames <= room && read_so_far.frames <= logged_room, true);
    hidzgula_frame frame;
    hidzgula_logged place;
    memset(&frame, 0xA5, sizeof frame);
    memset(&place, 0xA5, sizeof place);
    bool well = true;
    for (size_t i = read_so_far.frames; i < MOST; i++) well = well && !memcmp(&read_frames_of[i], &frame, sizeof frame) && !memcmp(&logged[i], &place, sizeof place);
    is("nothing is written behind", well, true);
}

static bool same_frame(const hidzgula_frame *one, const hidzgula_frame *other)
{
    return one->id == other->id && one->length == other->length && !memcmp(one->bytes, other->bytes, one->length);
}

/* the whole text, so many frames at once, and no more than so many bytes of it at hand */
static void in_rows(size_t room, size_t at_hand)
{
    size_t at = 0, found = 0;
    uint64_t lines = 0;
    bool well = true;
    while (at < length) {
        size_t left = length - at;
        read_from(text + at, left < at_hand ? left : at_hand, "", room, MOST);
        if (!read_so_far.lines) abort();
        for (size_t i = 0; i < read_so_far.frames; i++, found++)
            well = well && found < frame_count && same_frame(&read_frames_of[i], &frames[found]) && logged[i].time == times[found] && lines + logged[i].line == lines_of[found];
        at += read_so_far.bytes;
        lines += read_so_far.lines;
        well = well && text[at - 1] == '\n';
    }
    is("the frames are those", well && found == frame_count, true);
}

/* a text, of a bus; how many bytes and lines are read, what the first frame is, and what the last line told */
struct row {
    const char *text, *bus;
    size_t bytes;
    uint64_t lines;
    const char *frame;
    uint8_t what;
    uint32_t missed;
    uint8_t why;
    uint64_t time;
};

#define FRAME "18FECA00#04FF6E000001FFFF"
#define NONE HIDZGULA_NO_TIME

static const struct row rows[] = {
    { "", "", 0, 0, "", 0, 0, 0, 0 },
    { "(1.5", "", 0, 0, "", 0, 0, 0, 0 },
    { "(1.000000) can0 " FRAME, "", 0, 0, "", 0, 0, 0, 0 },
    { "(1.000002) can0 " FRAME "\n", "", 42, 1, FRAME, 0, 0, 0, 1000002 },
    { "(1.000002) can0 " FRAME "\r\n", "", 43, 1, FRAME, 0, 0, 0, 1000002 },
    { "(1.000002) can0 " FRAME "\n(2", "can0", 42, 1, FRAME, 0, 0, 0, 1000002 },
    { "(1.000002) can0 " FRAME "\n", "can1", 42, 1, "", 0, 0, 0, 0 },
    { "(1.000002) can0 " FRAME "\n", "can", 42, 1, "", 0, 0, 0, 0 },
    { "(1.002) can0 " FRAME " R\n", "", 41, 1, FRAME, 0, 0, 0, 1002000 },
    { " can0  18FECA00   [8]  04 FF 6E 00 00 01 FF FF\n", "can0", 47, 1, FRAME, 0, 0, 0, NONE },
    { FRAME "\n", "can0", 26, 1, "", 0, 0, 0, 0 },
    { FRAME "\n", "", 26, 1, FRAME, 0, 0, 0, NONE },
    { "\n# a note\nother\n", "", 16, 3, "", 0, 0, 0, 0 },
    { "(1.000000) can0 123#00\n(1.000000) can0 18FECA00#R\n", "", 50, 2, "", 0, 0, 0, 0 },
    { "DROPCOUNT: dropped 7 CAN frames on 'can0' socket (total drops 7)\n\n", "", 65, 1, "", 1, 7, 0, 0 },
    { "DROPCOUNT: dropped 7 CAN frames on 'can0' socket (total drops 7)\n\n", "can1", 66, 2, "", 0, 0, 0, 0 },
    { "(1.000000) can0 20000004#0001000000000000\n", "can0", 42, 1, "", 1, 1, 0, 0 },
    { "(1.000000) can0 20000004#0001000000000000\n", "can1", 42, 1, "", 0, 0, 0, 0 },
    { "(1.000000) can0 " FRAME "\n(x)\n\n", "", 46, 2, FRAME, 2, 0, HIDZGULA_BAD_NO_TIME, 1000000 },
    { "(\xFF\n", "can7", 3, 1, "", 2, 0, HIDZGULA_BAD_NO_TEXT, 0 },
    { "(1.0) can0 " FRAME "\n", "", 37, 1, "", 2, 0, HIDZGULA_BAD_NO_TIME, 0 },
    { "(1.000000)\n", "", 11, 1, "", 2, 0, HIDZGULA_BAD_NO_BUS, 0 },
    { "(1.000000) can0\n", "", 16, 1, "", 2, 0, HIDZGULA_BAD_NO_FRAME, 0 },
    { "(1.000000) can0 18FECA00\n", "", 25, 1, "", 2, 0, HIDZGULA_BAD_NO_HASH, 0 },
    { "(1.000000) can0 18FECA0#00\n", "", 27, 1, "", 2, 0, HIDZGULA_BAD_ID_DIGITS, 0 },
    { "(1.000000) can0 40000000#00\n", "", 28, 1, "", 2, 0, HIDZGULA_BAD_ID_TOO_LARGE, 0 },
    { "(1.000000) can0 18FECA00#000102030405060708\n", "", 44, 1, "", 2, 0, HIDZGULA_BAD_TOO_MANY_BYTES, 0 },
    { "(1.000000) can0 18FECA00 [3] 00 01\n", "", 35, 1, "", 2, 0, HIDZGULA_BAD_BYTE_COUNT, 0 },
    { "(1.000000) can0 18FECA00#001\n", "", 29, 1, "", 2, 0, HIDZGULA_BAD_ODD_DIGITS, 0 },
    { "(1.000000) can0 18FECA00#0G\n", "", 28, 1, "", 2, 0, HIDZGULA_BAD_NO_DIGIT, 0 },
    { "(1.000000) can0 18FECA00#00 R R\n", "", 32, 1, "", 2, 0, HIDZGULA_BAD_WORDS_BEHIND, 0 },
};

static void lines_of_each_form(void)
{
    for (size_t i = 0; i < sizeof rows / sizeof rows[0]; i++) {
        const struct row *row = &rows[i];
        char found[32] = "";
        read_from(row->text, strlen(row->text), row->bus, 4, 4);
        is(row->text, read_so_far.bytes, row->bytes);
        is("its lines", read_so_far.lines, row->lines);
        is("its frames", read_so_far.frames, row->frame[0] != 0);
        is("what it tells", read_so_far.what, row->what);
        is("how many were missed", read_so_far.missed, row->missed);
        is("why it is bad", read_so_far.why, row->why);
        if (!read_so_far.frames) continue;
        int end = sprintf(found, "%08" PRIX32 "#", read_frames_of[0].id);
        for (int k = 0; k < read_frames_of[0].length; k++) end += sprintf(found + end, "%02X", read_frames_of[0].bytes[k]);
        is("its frame", !strcmp(found, row->frame), true);
        is("its time", logged[0].time == row->time, true);
    }
    static char longest[5000];
    memset(longest, '#', sizeof longest);
    longest[4097] = '\n';
    read_from(longest, sizeof longest, "", 4, 4);
    is("longer than a line may be", read_so_far.what == HIDZGULA_READ_BAD && read_so_far.why == HIDZGULA_BAD_TOO_LONG, true);
    longest[4096] = '\n';
    read_from(longest, 4097, "", 4, 4);
    is("as long as one may be", read_so_far.what == HIDZGULA_READ && read_so_far.bytes == 4097, true);
    read_from(text, length, "", 0, 4);
    is("no room", read_so_far.bytes || read_so_far.lines, false);
    read_from(text, length, "", 4, 0);
    is("no room either", read_so_far.bytes || read_so_far.lines, false);
    read_from(text, length, "", 4, 2);
    is("the lesser room", read_so_far.frames, 2);
}

int main(void)
{
    length = fread(text, 1, sizeof text - 1, stdin);
    find_frames();
    is("some frames", frame_count > 500, true);
    in_rows(1, sizeof text);
    in_rows(2, 100);
    in_rows(3, 4100);
    in_rows(64, 1000);
    in_rows(MOST, sizeof text);
    lines_of_each_form();
    return sums();
}
