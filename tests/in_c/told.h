/* A sum over all that a station tells: rows, lists, counts, its address and its claim. */
#include "hidzgula_station.h"

static uint64_t sum;

static void add(uint64_t value) { sum = (sum ^ value) * 0x100000001B3u; }

static void add_list(hidzgula_station *station, uint64_t name, uint8_t kind)
{
    uint64_t entries = 0;
    hidzgula_entries(station, name, kind, &entries);
    add(entries);
    for (uint64_t i = 0; i <= entries; i++) {
        hidzgula_entry_out entry = { 0, 0, 0 };
        add(hidzgula_entry(station, name, kind, i, &entry));
        add(entry.lamps * 256u + entry.flashes);
        for (size_t j = 0; j < entry.codes; j++) {
            hidzgula_code_out code = { 0, 0, 0 };
            add(hidzgula_code(station, name, kind, i, j, &code));
            add(code.spn * 65536u + code.fmi * 256u + code.count);
        }
    }
}

static uint64_t told_by(hidzgula_station *station)
{
    size_t rows = 0;
    uint64_t missed = 0, unread = 0;
    uint8_t has = 0, address = 0;
    hidzgula_frame claim = { 0, 0, { 0 } };
    sum = 0xCBF29CE484222325u;
    add(hidzgula_rows(station, &rows));
    add(rows);
    for (size_t i = 0; i < rows; i++) {
        hidzgula_row_out row = { 0, 0, 0, 0, 0, 0 };
        add(hidzgula_row(station, i, &row));
        add(row.name);
        add(((row.has_address * 256u + row.address) * 256u + row.has_ack) * 256u + row.ack_control);
        add(row.ack_pgn);
        add_list(station, row.name, HIDZGULA_DM1);
        add_list(station, row.name, HIDZGULA_DM2);
        add_list(station, row.name, HIDZGULA_DM6);
    }
    add(hidzgula_counts(station, &missed, &unread));
    add(missed);
    add(unread);
    add(hidzgula_held(station, &has, &address));
    add(has * 256u + address);
    add(hidzgula_claim(station, &claim));
    add(claim.id);
    return sum;
}
