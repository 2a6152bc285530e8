/* A live station on a CAN interface of Linux that tells its VIN, as `./teller can0`: it claims the address 249, and answers requests for 65260, one to all
 * by a broadcast and one to it by a session with who asked. What came of each answer is a line. `-` for the interface is a socket at standard
 * input that takes and gives the same frames. It ends with status 1, and says why. */
#define _POSIX_C_SOURCE 200809L
#include "hidzgula_station.h"

#include <errno.h>
#include <linux/can.h>
#include <net/if.h>
#include <poll.h>
#include <stdio.h>
#include <string.h>
#include <sys/socket.h>
#include <time.h>
#include <unistd.h>

enum { OWN = 249, VIN = 65260, NOBODY = -1 };

static const char vin[] = "HIDZGULA1VIN00001";
static hidzgula_live live = HIDZGULA_EMPTY;
static int asks = NOBODY; /* who is to be told the VIN: an address, or all (255) */

static uint64_t now(void)
{
    struct timespec time;
    clock_gettime(CLOCK_MONOTONIC, &time);
    return (uint64_t)time.tv_sec * 1000000 + (uint64_t)time.tv_nsec / 1000;
}

/* -1 where it cannot be opened: errno says why */
static int open_bus(const char *name)
{
    struct sockaddr_can address = { .can_family = AF_CAN };
    int bus;
    if (!strcmp(name, "-")) return 0;
    address.can_ifindex = (int)if_nametoindex(name);
    if (!address.can_ifindex) return -1;
    bus = socket(PF_CAN, SOCK_RAW, CAN_RAW);
    return bus < 0 || bind(bus, (struct sockaddr *)&address, sizeof address) ? -1 : bus;
}

static bool write_frame(int bus, const hidzgula_frame *frame)
{
    struct can_frame it = { .can_id = frame->id | CAN_EFF_FLAG, .can_dlc = frame->length };
    memcpy(it.data, frame->bytes, frame->length);
    return write(bus, &it, sizeof it) == (ssize_t)sizeof it;
}

/* a request for the VIN, to the station or to all (SAE J1939-21) */
static bool is_request(uint32_t id, const uint8_t *bytes, uint8_t length)
{
    uint8_t to = (uint8_t)(id >> 8);
    return (id >> 16 & 0x1FF) == 0xEA && (to == OWN || to == 255) && length >= 3 && (bytes[0] | bytes[1] << 8 | bytes[2] << 16) == VIN;
}

/* a frame is heard by the groups that are shared, and by the station where it is not withheld; one that is refused counts as not heard */
static void hear(uint32_t id, const uint8_t *bytes, uint8_t length)
{
    hidzgula_change change;
    uint8_t withheld = 0, whole = 0;
    if (is_request(id, bytes, length)) asks = (uint8_t)(id >> 8) == 255 ? 255 : (int)(id & 255);
    hidzgula_live_shared_hear(&live, id, bytes, length, &withheld, &whole);
    if (!withheld) hidzgula_live_hear(&live, id, bytes, length, now(), &change);
}

/* tells the VIN where it was asked for, once what is under way has ended, and writes what came of that */
static void tell(void)
{
    static bool is_told = true;
    uint8_t what = HIDZGULA_SEND_NONE, reason = 0;
    hidzgula_live_shared_sent(&live, &what, &reason);
    if (what == HIDZGULA_SEND_OPEN) return;
    if (!is_told) {
        printf("{\"sent\":%u,\"reason\":%u}\n", what, reason);
        fflush(stdout);
    }
    is_told = asks == NOBODY || hidzgula_live_shared_send(&live, (uint8_t)asks, VIN, (const uint8_t *)vin, sizeof vin - 1) != HIDZGULA_DONE;
    asks = NOBODY;
}

/* waits for a frame until `at`; false where the bus is gone: errno says why, 0 where it has ended */
static bool read_frame(int bus, uint64_t at)
{
    uint64_t time = now(), wait = at > time ? (at - time + 999) / 1000 : 0;
    struct pollfd one = { .fd = bus, .events = POLLIN };
    struct can_frame it;
    if (poll(&one, 1, wait < 1000 ? (int)wait : 1000) <= 0) return true;
    errno = 0;
    if (read(bus, &it, sizeof it) != (ssize_t)sizeof it) return false;
    if ((it.can_id & (CAN_EFF_FLAG | CAN_RTR_FLAG | CAN_ERR_FLAG)) == CAN_EFF_FLAG) hear(it.can_id & CAN_EFF_MASK, it.data, it.can_dlc);
    return true;
}

static int failed(const char *name, const char *why)
{
    fprintf(stderr, "teller: %s: %s\n", name, why);
    return 1;
}

int main(int argc, char **argv)
{
    hidzgula_live_settings settings = HIDZGULA_USUAL_LIVE_SETTINGS;
    int bus = argc == 2 ? open_bus(argv[1]) : -1;
    bool goes_on = true;
    if (argc != 2) return failed("usage", "teller INTERFACE, as teller can0; - for a socket at standard input");
    if (bus < 0) return failed(argv[1], strerror(errno));
    if (hidzgula_live_open(&live, 0x10000000000000FA, OWN, &settings) != HIDZGULA_DONE) return failed(argv[1], "no memory for a station");
    if (hidzgula_live_share(&live, VIN) != HIDZGULA_DONE) return failed(argv[1], "no memory for a group");
    while (goes_on) {
        hidzgula_frame frame;
        uint64_t at = UINT64_MAX, other = UINT64_MAX;
        uint8_t has = 1;
        while (goes_on && hidzgula_live_next(&live, now(), &frame, &has) == HIDZGULA_DONE && has) goes_on = write_frame(bus, &frame);
        while (goes_on && hidzgula_live_shared_next(&live, now(), &frame, &has) == HIDZGULA_DONE && has) goes_on = write_frame(bus, &frame);
        tell();
        hidzgula_live_when(&live, now(), &at);
        hidzgula_live_shared_when(&live, now(), &other);
        goes_on = goes_on && read_frame(bus, at < other ? at : other);
    }
    hidzgula_live_close(&live);
    return failed(argv[1], errno ? strerror(errno) : "the bus has ended");
}
