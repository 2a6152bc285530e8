/* Each NAME of standard input, a line of 16 digits, claims an address and sends a DM1 from there. Writes how many rows a listener has. */
#include "hidzgula_station.h"

#include <inttypes.h>
#include <stdio.h>
#include <stdlib.h>

static hidzgula_listener listener = HIDZGULA_EMPTY;
static hidzgula_heard heard;

static void take(uint32_t id, const uint8_t bytes[8])
{
    if (hidzgula_listener_take_at(&listener, HIDZGULA_NO_TIME, id, bytes, 8, &heard) != HIDZGULA_DONE) abort();
}

int main(void)
{
    static const uint8_t dm1[8] = { 0x04, 0xFF, 0x64, 0x00, 0x03, 0x01, 0xFF, 0xFF };
    uint64_t name;
    size_t rows;
    if (hidzgula_listener_open(&listener, 1) != HIDZGULA_DONE) return 1;
    for (uint32_t place = 0; scanf("%" SCNx64, &name) == 1; place++) {
        uint8_t bytes[8];
        for (int byte = 0; byte < 8; byte++) bytes[byte] = (uint8_t)(name >> 8 * byte);
        take(0x18EEFF00 | place % 250, bytes);
        take(0x18FECA00 | place % 250, dm1);
    }
    if (hidzgula_listener_rows(&listener, &rows) != HIDZGULA_DONE) return 1;
    printf("%zu\n", rows);
    hidzgula_listener_close(&listener);
    return 0;
}
