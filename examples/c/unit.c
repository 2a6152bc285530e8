/* A simulated unit on a CAN interface of Linux, as `./unit can0`: it claims the address 128, answers what it is asked, and sends its DM1 each second,
 * in which the fault 110/0 comes and goes every ten seconds. `-` for the interface is a socket at standard input that takes and gives the
 * same frames. It ends with status 1, and says why. On another system open_bus, write_frame and read_frame are what has to be written anew. */
#define _POSIX_C_SOURCE 200809L
#include "hidzgula_station.h"

#include <errno.h>
#include <linux/can.h>
#include <net/if.h>
#include <poll.h>
#include <stdio.h>
#include <string.h>
#include <sys/socket.h>
#include <time.h>
#include <unistd.h>

static uint64_t now(void)
{
    struct timespec time;
    clock_gettime(CLOCK_MONOTONIC, &time);
    return (uint64_t)time.tv_sec * 1000000 + (uint64_t)time.tv_nsec / 1000;
}

/* -1 where it cannot be opened: errno says why */
static int open_bus(const char *name)
{
    struct sockaddr_can address = { .can_family = AF_CAN };
    int bus;
    if (!strcmp(name, "-")) return 0;
    address.can_ifindex = (int)if_nametoindex(name);
    if (!address.can_ifindex) return -1;
    bus = socket(PF_CAN, SOCK_RAW, CAN_RAW);
    return bus < 0 || bind(bus, (struct sockaddr *)&address, sizeof address) ? -1 : bus;
}

static bool write_frame(int bus, const hidzgula_frame *frame)
{
    struct can_frame it = { .can_id = frame->id | CAN_EFF_FLAG, .can_dlc = frame->length };
    memcpy(it.data, frame->bytes, frame->length);
    return write(bus, &it, sizeof it) == (ssize_t)sizeof it;
}

/* waits for a frame until `at`, and has the unit hear it; false where the bus is gone: errno says why, 0 where it has ended */
static bool read_frame(int bus, hidzgula_unit *unit, uint64_t at)
{
    uint64_t time = now(), wait = at > time ? (at - time + 999) / 1000 : 0;
    struct pollfd one = { .fd = bus, .events = POLLIN };
    struct can_frame it;
    if (poll(&one, 1, wait < 1000 ? (int)wait : 1000) <= 0) return true;
    errno = 0;
    if (read(bus, &it, sizeof it) != (ssize_t)sizeof it) return false;
    if ((it.can_id & (CAN_EFF_FLAG | CAN_RTR_FLAG | CAN_ERR_FLAG)) == CAN_EFF_FLAG) /* one that is refused counts as not heard */
        hidzgula_unit_hear(unit, it.can_id & CAN_EFF_MASK, it.data, it.can_dlc, now());
    return true;
}

/* says why the program ends */
static int failed(const char *name, const char *why)
{
    fprintf(stderr, "unit: %s: %s\n", name, why);
    return 1;
}

int main(int argc, char **argv)
{
    hidzgula_unit unit = HIDZGULA_EMPTY;
    hidzgula_unit_settings settings = HIDZGULA_USUAL_SETTINGS;
    int bus = argc == 2 ? open_bus(argv[1]) : -1;
    bool goes_on = true;
    if (argc != 2) return failed("usage", "unit INTERFACE, as unit can0; - for a socket at standard input");
    if (bus < 0) return failed(argv[1], strerror(errno));
    if (hidzgula_unit_open(&unit, 0x1000000001419907, 128, &settings) != HIDZGULA_DONE) return failed(argv[1], "no memory for a unit");
    for (uint64_t at = 0, turn = 0; goes_on; hidzgula_unit_when(&unit, now(), &at), goes_on = goes_on && read_frame(bus, &unit, at)) {
        hidzgula_frame frame;
        uint8_t has = 1;
        if (now() >= turn) {
            if (hidzgula_unit_heal(&unit, 110, 0) != HIDZGULA_DONE) hidzgula_unit_set(&unit, 110, 0);
            turn = now() + 10000000;
        }
        while (goes_on && hidzgula_unit_next(&unit, now(), &frame, &has) == HIDZGULA_DONE && has) goes_on = write_frame(bus, &frame);
    }
    hidzgula_unit_close(&unit);
    return failed(argv[1], errno ? strerror(errno) : "the bus has ended");
}
