/* Which entries are kept of each list, where none, one, sixteen or all are to be: the newest, at the places that they have among all that
 * came. What never came is at no place, and what is kept no longer is told apart from it. Writes a line for each that is otherwise, and
 * then the sums. */
#include "tries.h"

static hidzgula_station station = HIDZGULA_EMPTY;

/* a message of this kind with a code of this SPN, and a second one where that is odd: in a frame, or by a broadcast of two packets */
static void sends(uint8_t source, uint8_t kind, uint32_t spn)
{
    const uint8_t code[4] = { (uint8_t)spn, (uint8_t)(spn >> 8), (uint8_t)(spn >> 16 << 5 | 3), 1 };
    const uint32_t group = 0xFEC9u + kind; /* 65226 of DM1, 65227 of DM2, 65231 of DM6 */
    hidzgula_reply reply;
    if (spn % 2 == 0) {
        const uint8_t bytes[8] = { 0x04, 0xFF, code[0], code[1], code[2], code[3], 0xFF, 0xFF };
        is("sends", hidzgula_take_frame(&station, 0x18000000 | group << 8 | source, bytes, 8, &reply, NULL), HIDZGULA_DONE);
        return;
    }
    const uint8_t bam[8] = { 0x20, 10, 0, 2, 0xFF, (uint8_t)group, (uint8_t)(group >> 8), 0 };
    const uint8_t first[8] = { 1, 0x04, 0xFF, code[0], code[1], code[2], code[3], 0x64 }, last[8] = { 2, 0, 1, 1, 0xFF, 0xFF, 0xFF, 0xFF };
    is("announces", hidzgula_take_frame(&station, 0x1CECFF00u | source, bam, 8, &reply, NULL), HIDZGULA_DONE);
    is("sends", hidzgula_take_frame(&station, 0x1CEBFF00u | source, first, 8, &reply, NULL), HIDZGULA_DONE);
    is("sends", hidzgula_take_frame(&station, 0x1CEBFF00u | source, last, 8, &reply, NULL), HIDZGULA_DONE);
}

static hidzgula_entry_out entry;
static hidzgula_code_out code;

/* how the entry at a place and its codes are refused */
static void refused(uint64_t name, uint8_t kind, uint64_t place, uint32_t wanted)
{
    hidzgula_entry_out filled_entry;
    hidzgula_code_out filled_code;
    memset(&entry, 0xA5, sizeof entry);
    memset(&code, 0xA5, sizeof code);
    memcpy(&filled_entry, &entry, sizeof entry);
    memcpy(&filled_code, &code, sizeof code);
    is("an entry is refused", hidzgula_entry(&station, name, kind, place, &entry), wanted);
    is("its first code", hidzgula_code(&station, name, kind, place, 0, &code), wanted);
    is("a code that it has not", hidzgula_code(&station, name, kind, place, 9, &code), wanted);
    is("nothing is written", (unsigned long)(memcmp(&entry, &filled_entry, sizeof entry) | memcmp(&code, &filled_code, sizeof code)), 0);
}

static void told(uint64_t name, uint8_t kind, uint64_t place, uint32_t spn)
{
    is("an entry", hidzgula_entry(&station, name, kind, place, &entry), HIDZGULA_DONE);
    is("its lamps", entry.lamps * 256u + entry.flashes, 0x04FF);
    is("its codes", entry.codes, 1 + spn % 2);
    is("its first code", hidzgula_code(&station, name, kind, place, 0, &code), HIDZGULA_DONE);
    is("its SPN", code.spn, spn);
    is("no such code", hidzgula_code(&station, name, kind, place, entry.codes, &code), HIDZGULA_NO_PLACE);
    is("no such code", hidzgula_code(&station, name, kind, place, SIZE_MAX, &code), HIDZGULA_NO_PLACE);
    if (spn % 2 == 0) return;
    is("its second code", hidzgula_code(&station, name, kind, place, 1, &code), HIDZGULA_DONE);
    is("its SPN", code.spn, 100);
}

/* a list of so many entries, whose SPNs begin so, of which the newest are kept */
static void list(uint64_t name, uint8_t kind, uint64_t count, uint32_t spn, uint64_t keep)
{
    uint64_t found = UINT64_MAX;
    is("entries", hidzgula_entries(&station, name, kind, &found), HIDZGULA_DONE);
    is("entries", found, count);
    for (uint64_t place = 0; place < count; place++)
        if (count - place > keep) refused(name, kind, place, HIDZGULA_NOT_KEPT);
        else told(name, kind, place, spn + (uint32_t)place);
    refused(name, kind, count, HIDZGULA_NO_PLACE);
    refused(name, kind, count + keep, HIDZGULA_NO_PLACE);
    refused(name, kind, UINT64_MAX, HIDZGULA_NO_PLACE);
}

static void keeps(uint32_t keep)
{
    static const uint8_t a0[8] = { 0xA0, 0, 0, 0, 0, 0, 0, 0 }, b0[8] = { 0xB0, 0, 0, 0, 0, 0, 0, 0 };
    hidzgula_reply reply;
    is("opens", hidzgula_open(&station, 1, 248, 255, keep), HIDZGULA_DONE);
    is("a claim", hidzgula_take_frame(&station, 0x18EEFF07, a0, 8, &reply, NULL), HIDZGULA_DONE);
    is("a claim", hidzgula_take_frame(&station, 0x18EEFF09, b0, 8, &reply, NULL), HIDZGULA_DONE);
    for (uint32_t i = 0; i < 40; i++) {
        list(0xA0, HIDZGULA_DM1, i, 1000, keep);
        sends(7, HIDZGULA_DM1, 1000 + i);
        if (i % 2) sends(7, HIDZGULA_DM2, 2000 + i / 2);
        if (i % 3 == 0) sends(9, HIDZGULA_DM1, 3000 + i / 3);
        if (i % 20 == 0) sends(9, HIDZGULA_DM6, 4000 + i / 20);
    }
    list(0xA0, HIDZGULA_DM1, 40, 1000, keep);
    list(0xA0, HIDZGULA_DM2, 20, 2000, keep);
    list(0xA0, HIDZGULA_DM6, 0, 0, keep);
    list(0xB0, HIDZGULA_DM1, 14, 3000, keep);
    list(0xB0, HIDZGULA_DM2, 0, 0, keep);
    list(0xB0, HIDZGULA_DM6, 2, 4000, keep);
    list(0xC0, HIDZGULA_DM1, 0, 0, keep);
    /* an entry keeps its place, and what it says, when its unit loses its address */
    is("a claim", hidzgula_take_frame(&station, 0x18EEFF07, b0, 8, &reply, NULL), HIDZGULA_DONE);
    is("a gap", hidzgula_take_gap(&station, 1, &reply, NULL), HIDZGULA_DONE);
    list(0xA0, HIDZGULA_DM1, 40, 1000, keep);
    list(0xB0, HIDZGULA_DM6, 2, 4000, keep);
    hidzgula_close(&station);
}

int main(void)
{
    static const uint32_t numbers[] = { 0, 1, 2, 16, 39, 40, 41, UINT32_MAX };
    for (size_t i = 0; i < sizeof numbers / sizeof numbers[0]; i++) keeps(numbers[i]);
    return sums();
}
