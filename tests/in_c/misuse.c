/* What a C program may do wrong with the numbers that it hands over and the state of its station: each call answers why it was
 * refused, and nothing is changed. Writes a line for each that is otherwise, and then the sums. */
#include "tries.h"

static hidzgula_station station = HIDZGULA_EMPTY;
static const uint8_t bytes[9] = { 0xA0, 0, 0, 0, 0, 0, 0, 0, 0 };
static const size_t many = (size_t)-1;
static const uint32_t all = UINT32_MAX; /* kept of each list */

/* everything that a call can write, filled with bytes that no call writes */
static struct written {
    hidzgula_reply reply;
    hidzgula_change change;
    hidzgula_frame frame;
    hidzgula_row_out row;
    hidzgula_entry_out entry;
    hidzgula_code_out code;
    size_t count;
    uint64_t entries, missed, unread;
    uint8_t has, address;
} out, before;

static void fill(void)
{
    memset(&out, 0xA5, sizeof out);
    before = out;
}

static void nothing_written(const char *what) { is(what, (unsigned long)memcmp(&out, &before, sizeof out), 0); }

/* what stands behind the bytes of each frame of a reply, and behind its frames: 0, whatever stood there before */
static unsigned long behind(const hidzgula_reply *reply)
{
    unsigned long any = 0;
    for (int i = 0; i < 3; i++) {
        const hidzgula_frame *frame = &reply->frames[i];
        if (i >= reply->count) any |= frame->id | frame->length;
        for (int j = i < reply->count ? frame->length : 0; j < 8; j++) any |= frame->bytes[j];
    }
    return any;
}

/* all calls on a station that is empty */
static void on_empty(const char *when)
{
    fill();
    is(when, hidzgula_take_frame(&station, 0x18EEFF00, bytes, 8, &out.reply, &out.change), HIDZGULA_NO_STATION);
    is(when, hidzgula_take_gap(&station, 1, &out.reply, &out.change), HIDZGULA_NO_STATION);
    is(when, hidzgula_claim(&station, &out.frame), HIDZGULA_NO_STATION);
    is(when, hidzgula_held(&station, &out.has, &out.address), HIDZGULA_NO_STATION);
    is(when, hidzgula_ask(&station, 0xA0, HIDZGULA_PGN_DM1, &out.reply), HIDZGULA_NO_STATION);
    is(when, hidzgula_ask_all(&station, HIDZGULA_PGN_DM1, &out.reply), HIDZGULA_NO_STATION);
    is(when, hidzgula_command(&station, 0xA0, 254, &out.reply), HIDZGULA_NO_STATION);
    is(when, hidzgula_rows(&station, &out.count), HIDZGULA_NO_STATION);
    is(when, hidzgula_row(&station, 0, &out.row), HIDZGULA_NO_STATION);
    is(when, hidzgula_entries(&station, 0xA0, HIDZGULA_DM1, &out.entries), HIDZGULA_NO_STATION);
    is(when, hidzgula_entry(&station, 0xA0, HIDZGULA_DM2, UINT64_MAX, &out.entry), HIDZGULA_NO_STATION);
    is(when, hidzgula_code(&station, 0xA0, HIDZGULA_DM1, 0, 0, &out.code), HIDZGULA_NO_STATION);
    is(when, hidzgula_counts(&station, &out.missed, &out.unread), HIDZGULA_NO_STATION);
    /* what is wrong with the arguments is told first */
    is(when, hidzgula_take_frame(&station, 1u << 29, bytes, 9, &out.reply, &out.change), HIDZGULA_ID_TOO_LARGE);
    is(when, hidzgula_take_frame(&station, 0, bytes, 9, &out.reply, &out.change), HIDZGULA_TOO_LONG);
    is(when, hidzgula_entries(&station, 0xA0, 3, &out.entries), HIDZGULA_NO_KIND);
    is(when, hidzgula_ask_all(&station, 1u << 24, &out.reply), HIDZGULA_PGN_TOO_LARGE);
    nothing_written(when);
    hidzgula_close(&station);
    hidzgula_close(&station);
}

static void refused_by_arguments(void)
{
    fill();
    is("opened twice", hidzgula_open(&station, 2, 1, 1, 1), HIDZGULA_HAS_STATION);
    is("address 254", hidzgula_open(&station, 2, 254, 1, 1), HIDZGULA_BAD_SETTING);
    is("grant 0", hidzgula_open(&station, 2, 1, 0, 1), HIDZGULA_BAD_SETTING);
    is("identifier 2^29", hidzgula_take_frame(&station, 1u << 29, bytes, 8, &out.reply, &out.change), HIDZGULA_ID_TOO_LARGE);
    is("identifier 2^32 - 1", hidzgula_take_frame(&station, 0xFFFFFFFF, bytes, 9, &out.reply, &out.change), HIDZGULA_ID_TOO_LARGE);
    is("nine bytes", hidzgula_take_frame(&station, (1u << 29) - 1, bytes, 9, &out.reply, &out.change), HIDZGULA_TOO_LONG);
    is("group 2^24", hidzgula_ask(&station, 0xA0, 1u << 24, &out.reply), HIDZGULA_PGN_TOO_LARGE);
    is("group 2^24 of all", hidzgula_ask_all(&station, 1u << 24, &out.reply), HIDZGULA_PGN_TOO_LARGE);
    is("a NAME that is not known", hidzgula_ask(&station, 0xA1, HIDZGULA_PGN_DM1, &out.reply), HIDZGULA_NO_ADDRESS);
    is("to address 254", hidzgula_command(&station, 0xA0, 254, &out.reply), HIDZGULA_NOT_AN_ADDRESS);
    is("to address 255", hidzgula_command(&station, 0xA0, 255, &out.reply), HIDZGULA_NOT_AN_ADDRESS);
    is("row 1", hidzgula_row(&station, 1, &out.row), HIDZGULA_NO_PLACE);
    is("row 2^64 - 1", hidzgula_row(&station, many, &out.row), HIDZGULA_NO_PLACE);
    is("kind 0", hidzgula_entries(&station, 0xA0, 0, &out.entries), HIDZGULA_NO_KIND);
    is("kind 3", hidzgula_entry(&station, 0xA0, 3, 0, &out.entry), HIDZGULA_NO_KIND);
    is("kind 5", hidzgula_entry(&station, 0xA0, 5, 0, &out.entry), HIDZGULA_NO_KIND);
    is("kind 7", hidzgula_entries(&station, 0xA0, 7, &out.entries), HIDZGULA_NO_KIND);
    is("kind 255", hidzgula_code(&station, 0xA0, 255, 0, 0, &out.code), HIDZGULA_NO_KIND);
    is("entry 1", hidzgula_entry(&station, 0xA0, HIDZGULA_DM1, 1, &out.entry), HIDZGULA_NO_PLACE);
    is("entry 2^64 - 1", hidzgula_entry(&station, 0xA0, HIDZGULA_DM1, UINT64_MAX, &out.entry), HIDZGULA_NO_PLACE);
    is("entry of an unknown NAME", hidzgula_entry(&station, 0xA1, HIDZGULA_DM1, 0, &out.entry), HIDZGULA_NO_PLACE);
    is("code 1", hidzgula_code(&station, 0xA0, HIDZGULA_DM1, 0, 1, &out.code), HIDZGULA_NO_PLACE);
    is("code of entry 1", hidzgula_code(&station, 0xA0, HIDZGULA_DM1, 1, 0, &out.code), HIDZGULA_NO_PLACE);
    nothing_written("what was refused writes nothing");
}

/* one unit that tells one code; each field is looked at, since the layouts of both sides meet here */
static void fields(void)
{
    static const uint8_t dm1[8] = { 0x04, 0xFF, 0xB8, 0x04, 0x03, 0x01, 0xFF, 0xFF };
    static const uint8_t dm6[8] = { 0x00, 0xFF, 0x64, 0x00, 0x01, 0x02, 0xFF, 0xFF };
    static const uint8_t ack[8] = { 1, 0xFF, 0xFF, 0xFF, 248, 0xCC, 0xFE, 0x00 };
    static const uint8_t request[3] = { 0x00, 0xEE, 0x00 };
    is("a claim", hidzgula_take_frame(&station, 0x18EEFF07, bytes, 8, &out.reply, &out.change), HIDZGULA_DONE);
    is("is not answered", out.reply.count, 0);
    is("and no place of a frame is written", out.reply.frames[0].id, 0xA5A5A5A5);
    is("row 0", hidzgula_row(&station, 0, &out.row), HIDZGULA_DONE);
    is("without acknowledgment", out.row.has_ack | out.row.ack_control | out.row.ack_pgn, 0);
    is("no bytes", hidzgula_take_frame(&station, 0x18FECA07, bytes, 0, &out.reply, &out.change), HIDZGULA_DONE);
    /* no pointer for no bytes: nothing is proved of it, and nothing is read */
    is("no bytes at NULL", hidzgula_take_frame(&station, 0x18FEF107, NULL, 0, &out.reply, &out.change), HIDZGULA_DONE);
    is("a DM1", hidzgula_take_frame(&station, 0x18FECA07, dm1, 8, &out.reply, &out.change), HIDZGULA_DONE);
    is("a DM6", hidzgula_take_frame(&station, 0x18FECF07, dm6, 8, &out.reply, &out.change), HIDZGULA_DONE);
    is("an acknowledgment", hidzgula_take_frame(&station, 0x18E8FF07, ack, 8, &out.reply, &out.change), HIDZGULA_DONE);
    is("rows", hidzgula_rows(&station, &out.count), HIDZGULA_DONE);
    is("rows", out.count, 1);
    is("row 0", hidzgula_row(&station, 0, &out.row), HIDZGULA_DONE);
    is("its NAME", out.row.name, 0xA0);
    is("its address", out.row.has_address * 256u + out.row.address, 256 + 7);
    is("its acknowledgment", out.row.has_ack * 256u + out.row.ack_control, 256 + 1);
    is("of DM3", out.row.ack_pgn, HIDZGULA_PGN_DM3);
    is("entries", hidzgula_entries(&station, 0xA0, HIDZGULA_DM1, &out.entries), HIDZGULA_DONE);
    is("entries", out.entries, 1);
    is("of DM2", hidzgula_entries(&station, 0xA0, HIDZGULA_DM2, &out.entries), HIDZGULA_DONE);
    is("of DM2", out.entries, 0);
    is("of DM6", hidzgula_entries(&station, 0xA0, HIDZGULA_DM6, &out.entries), HIDZGULA_DONE);
    is("of DM6", out.entries, 1);
    is("the entry", hidzgula_entry(&station, 0xA0, HIDZGULA_DM1, 0, &out.entry), HIDZGULA_DONE);
    is("its lamps", out.entry.lamps * 256u + out.entry.flashes, 0x04FF);
    is("its codes", out.entry.codes, 1);
    is("the code", hidzgula_code(&station, 0xA0, HIDZGULA_DM1, 0, 0, &out.code), HIDZGULA_DONE);
    is("its SPN", out.code.spn, 1208);
    is("its FMI and count", out.code.fmi * 256u + out.code.count, 3 * 256 + 1);
    is("the entry of DM6", hidzgula_entry(&station, 0xA0, HIDZGULA_DM6, 0, &out.entry), HIDZGULA_DONE);
    is("its lamps", out.entry.lamps * 256u + out.entry.flashes, 0x00FF);
    is("the code of DM6", hidzgula_code(&station, 0xA0, HIDZGULA_DM6, 0, 0, &out.code), HIDZGULA_DONE);
    is("its SPN", out.code.spn, 100);
    is("its FMI and count", out.code.fmi * 256u + out.code.count, 256 + 2);
    is("counts", hidzgula_counts(&station, &out.missed, &out.unread), HIDZGULA_DONE);
    is("counts", out.missed * 256 + out.unread, 1); /* the DM1 without bytes cannot be read */
    is("its own address", hidzgula_held(&station, &out.has, &out.address), HIDZGULA_DONE);
    is("its own address", out.has * 256u + out.address, 256 + 248);
    is("its claim", hidzgula_claim(&station, &out.frame), HIDZGULA_DONE);
    is("its claim", out.frame.id, 0x18EEFFF8);
    is("of its NAME", out.frame.length * 256u + out.frame.bytes[0], 8 * 256 + 1);
    is("a request for claims", hidzgula_take_frame(&station, 0x18EAFFF9, request, 3, &out.reply, &out.change), HIDZGULA_DONE);
    is("is answered", out.reply.count * 256u + out.reply.withdraw, 256);
    is("by the claim", (unsigned long)memcmp(&out.reply.frames[0], &out.frame, sizeof out.frame), 0);
}

static void orders(void)
{
    is("asks", hidzgula_ask(&station, 0xA0, HIDZGULA_PGN_DM11, &out.reply), HIDZGULA_DONE);
    is("by one frame", out.reply.count * 256u + out.reply.withdraw, 256);
    is("to its address", out.reply.frames[0].id, 0x18EA07F8);
    is("of three bytes", out.reply.frames[0].length, 3);
    is("and nothing behind", behind(&out.reply), 0);
    is("asks for DM6", hidzgula_ask(&station, 0xA0, HIDZGULA_PGN_DM6, &out.reply), HIDZGULA_DONE);
    is("of DM6", out.reply.frames[0].bytes[0] * 65536u + out.reply.frames[0].bytes[1] * 256u + out.reply.frames[0].bytes[2], 0xCFFE00);
    is("asks all", hidzgula_ask_all(&station, HIDZGULA_PGN_DM1, &out.reply), HIDZGULA_DONE);
    is("to all", out.reply.frames[0].id, 0x18EAFFF8);
    is("commands", hidzgula_command(&station, 0xA0, 9, &out.reply), HIDZGULA_DONE);
    is("by three frames", out.reply.count, 3);
    is("announced", out.reply.frames[0].id, out.reply.frames[1].id + 0x10000);
    is("in two packets", out.reply.frames[1].bytes[0] * 256u + out.reply.frames[2].bytes[0], 256 + 2);
    is("to this address", out.reply.frames[2].bytes[2], 9);
    is("misses frames", hidzgula_take_gap(&station, 5, &out.reply, &out.change), HIDZGULA_DONE);
    is("and claims again", out.reply.count * 256u + out.reply.withdraw, 2 * 256 + 1);
    is("and asks for claims", out.reply.frames[1].id, 0x18EAFFF8);
    is("in two frames alone", behind(&out.reply), 0);
    is("counts", hidzgula_counts(&station, &out.missed, &out.unread), HIDZGULA_DONE);
    is("missed", out.missed, 5);
    is("knows no address", hidzgula_ask(&station, 0xA0, HIDZGULA_PGN_DM1, &out.reply), HIDZGULA_NO_ADDRESS);
    is("row 0", hidzgula_row(&station, 0, &out.row), HIDZGULA_DONE);
    is("without address", out.row.has_address * 256u + out.row.address, 0);
    /* a lower NAME takes the station's address, and then each that it could move to is of no use: its NAME is no arbitrary one */
    is("loses its address", hidzgula_take_frame(&station, 0x18EEFFF8, (const uint8_t[8]){ 0 }, 8, &out.reply, &out.change), HIDZGULA_DONE);
    is("says so", out.reply.frames[0].id, 0x18EEFFFE);
    is("holds none", hidzgula_held(&station, &out.has, &out.address), HIDZGULA_DONE);
    is("holds none", out.has * 256u + out.address, 0);
    is("asks none", hidzgula_ask(&station, 0xA0, HIDZGULA_PGN_DM1, &out.reply), HIDZGULA_NOT_HELD);
    is("asks not all", hidzgula_ask_all(&station, HIDZGULA_PGN_DM1, &out.reply), HIDZGULA_NOT_HELD);
    is("commands none", hidzgula_command(&station, 0xA0, 9, &out.reply), HIDZGULA_NOT_HELD);
}

int main(void)
{
    on_empty("empty");
    station.full = true; /* no program writes there; a station is where the pointer is not NULL, whatever stands beside it */
    on_empty("a flag alone");
    memset(&station, 0xFF, sizeof station);
    station.at = NULL;
    on_empty("no pointer");
    is("address 254", hidzgula_open(&station, 1, 254, 1, all), HIDZGULA_BAD_SETTING);
    is("grant 0", hidzgula_open(&station, 1, 253, 0, all), HIDZGULA_BAD_SETTING);
    on_empty("refused");
    is("opens", hidzgula_open(&station, 1, 248, 255, all), HIDZGULA_DONE);
    fields();
    refused_by_arguments();
    orders();
    hidzgula_close(&station);
    on_empty("closed");
    is("opens again", hidzgula_open(&station, 1, 248, 255, all), HIDZGULA_DONE);
    is("has read nothing", hidzgula_rows(&station, &out.count), HIDZGULA_DONE);
    is("has read nothing", out.count, 0);
    hidzgula_close(&station);
    return sums();
}
