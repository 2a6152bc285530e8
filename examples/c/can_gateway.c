/* A live station on a CAN interface of Linux, as `./can_gateway can0`: it claims the address 249, asks all units for their claims, and then for
 * DM2 and VIN, answers what the bus asks of it, and writes a line of JSON for each DM1, DM2 and DM6 as it is listed, and for each VIN. It does what a gateway
 * over SocketCAN has to do:
 *  - the kernel hands on 29-bit data frames alone, and what the controller tells of itself;
 *  - what the kernel dropped, since the program was slow (SO_RXQ_OVFL), or the controller lost, is a gap of so many frames, or of one: the
 *    station then forgets who has which address, and asks anew;
 *  - it writes each frame when that is due, and while the bus takes none, nothing is read: so what waits is withdrawn where it has to be;
 *  - whatever claims, it has 1,024 NAMEs at most, and goes on for years.
 * `-` for the interface is a socket at standard input that takes and gives the same frames. It ends with status 1, and says why. */
#define _DEFAULT_SOURCE
#include "hidzgula_station.h"

#include <errno.h>
#include <inttypes.h>
#include <linux/can.h>
#include <linux/can/error.h>
#include <linux/can/raw.h>
#include <net/if.h>
#include <poll.h>
#include <stdio.h>
#include <string.h>
#include <sys/socket.h>
#include <time.h>

enum { VIN = 65260, NAMES = 1024, MILLISECOND = 1000, LONGEST = 3600 * 1000 };

static hidzgula_live station = HIDZGULA_EMPTY;
static struct can_frame waiting, unheard; /* what the bus did not take yet, and what the station did not hear yet, since as much waits as there is room for */
static bool lost; /* the address, where the station is to be begun anew at it */
static bool waits, is_unheard, is_shared_with; /* the last: the shared groups heard what the station did not hear yet */
static uint32_t missed, dropped; /* what the station is not told yet; what the kernel dropped by its last word */

static uint64_t now(void)
{
    struct timespec time;
    clock_gettime(CLOCK_MONOTONIC, &time);
    return (uint64_t)time.tv_sec * 1000000 + (uint64_t)time.tv_nsec / 1000;
}

/* -1 where it cannot be opened: errno says why */
static int open_bus(const char *name)
{
    const struct can_filter data = { .can_id = CAN_EFF_FLAG, .can_mask = CAN_EFF_FLAG | CAN_RTR_FLAG };
    const can_err_mask_t errors = CAN_ERR_CRTL;
    const int on = 1;
    struct sockaddr_can address = { .can_family = AF_CAN };
    int bus = 0;
    if (strcmp(name, "-")) {
        address.can_ifindex = (int)if_nametoindex(name);
        bus = address.can_ifindex ? socket(PF_CAN, SOCK_RAW, CAN_RAW) : -1;
        if (bus < 0 || setsockopt(bus, SOL_CAN_RAW, CAN_RAW_FILTER, &data, sizeof data)) return -1;
        if (setsockopt(bus, SOL_CAN_RAW, CAN_RAW_ERR_FILTER, &errors, sizeof errors)) return -1;
        if (bind(bus, (struct sockaddr *)&address, sizeof address)) return -1;
    }
    return setsockopt(bus, SOL_SOCKET, SO_RXQ_OVFL, &on, sizeof on) ? -1 : bus;
}

/* writes what is due; false where the bus is gone */
static bool write_due(int bus)
{
    hidzgula_frame frame;
    uint8_t has = 0;
    for (;;) {
        if (!waits) {
            hidzgula_live_next(&station, now(), &frame, &has);
            if (!has) hidzgula_live_shared_next(&station, now(), &frame, &has);
            if (!has) return true;
            waiting = (struct can_frame) { .can_id = frame.id | CAN_EFF_FLAG, .can_dlc = frame.length };
            memcpy(waiting.data, frame.bytes, frame.length);
        }
        waits = send(bus, &waiting, sizeof waiting, MSG_DONTWAIT | MSG_NOSIGNAL) != (ssize_t)sizeof waiting;
        if (waits) return errno == ENOBUFS || errno == EAGAIN;
    }
}

/* the newest message of a list */
static void tell(const hidzgula_change *change)
{
    hidzgula_entry_out entry = { 0, 0, 0 };
    hidzgula_code_out code = { 0, 0, 0 };
    uint64_t all = 1;
    hidzgula_live_entries(&station, change->name, change->kind, &all);
    hidzgula_live_entry(&station, change->name, change->kind, all - 1, &entry);
    printf("{\"name\":\"%016" PRIX64 "\",\"address\":%u,\"dm\":%u,\"lamps\":\"%02X%02X\",\"codes\":[", change->name, change->address, change->kind,
        entry.lamps, entry.flashes);
    for (size_t i = 0; i < entry.codes; i++) {
        hidzgula_live_code(&station, change->name, change->kind, all - 1, i, &code);
        printf("%s{\"spn\":%" PRIu32 ",\"fmi\":%u,\"count\":%u}", i ? "," : "", code.spn, code.fmi, code.count);
    }
    printf("]}\n");
}

/* the newest VIN, which ends with `*`; what of it is no letter or digit stands as `?` */
static void tell_vin(void)
{
    hidzgula_message vin;
    if (hidzgula_live_shared_message(&station, &vin) != HIDZGULA_DONE || !vin.has_name) return;
    printf("{\"name\":\"%016" PRIX64 "\",\"address\":%u,\"vin\":\"", vin.name, vin.source);
    for (int i = 0; i < vin.size && vin.bytes[i] != '*'; i++) {
        const uint8_t it = vin.bytes[i];
        putchar((it >= '0' && it <= '9') || (it >= 'A' && it <= 'Z') || (it >= 'a' && it <= 'z') ? it : '?');
    }
    printf("\"}\n");
}

/* room for one more NAME, also where that ends an order */
static void make_room(void)
{
    uint8_t anew = 0;
    uint32_t answer = hidzgula_live_make_room(&station, NAMES, &anew);
    if (answer == HIDZGULA_ORDER_OPEN && hidzgula_live_end(&station, now()) == HIDZGULA_DONE) answer = hidzgula_live_make_room(&station, NAMES, &anew);
    if (anew) printf("{\"anew\":true}\n");
    lost = answer == HIDZGULA_NOT_HELD;
}

static void miss(uint32_t more) { missed = missed > UINT32_MAX - more ? UINT32_MAX : missed + more; }

/* what was missed, and then the frame that was read; without memory it is missed too. False where there is no room for more yet: then it is tried again */
static bool take(void)
{
    const uint32_t id = unheard.can_id & CAN_EFF_MASK;
    hidzgula_change change = { .what = HIDZGULA_NOTHING };
    uint8_t withheld = 0, whole = 0;
    uint32_t answer = missed ? hidzgula_live_missed(&station, missed, now(), &change) : (uint32_t)HIDZGULA_DONE;
    if (missed && answer == HIDZGULA_DONE) {
        printf("{\"missed\":%" PRIu32 "}\n", missed);
        missed = 0;
    }
    if ((unheard.can_id & (CAN_EFF_FLAG | CAN_RTR_FLAG | CAN_ERR_FLAG)) != CAN_EFF_FLAG) return answer != HIDZGULA_QUEUE_FULL;
    if (!is_shared_with) make_room();
    if (answer == HIDZGULA_DONE && !is_shared_with) {
        answer = hidzgula_live_shared_hear(&station, id, unheard.data, unheard.can_dlc, &withheld, &whole);
        is_shared_with = answer == HIDZGULA_DONE;
        if (whole) tell_vin();
    }
    if (answer == HIDZGULA_DONE && !withheld) answer = hidzgula_live_hear(&station, id, unheard.data, unheard.can_dlc, now(), &change);
    if (answer == HIDZGULA_QUEUE_FULL) return false;
    if (answer != HIDZGULA_DONE) miss(1);
    is_shared_with = false;
    if (change.what == HIDZGULA_CLAIMED) {
        hidzgula_live_shared_ask(&station, change.address, VIN);
        hidzgula_live_ask_all(&station, HIDZGULA_PGN_DM2);
    }
    if (change.what == HIDZGULA_LISTED) tell(&change);
    return true;
}

/* reads a frame, and how many the kernel dropped before it; false where the bus is gone: errno says why, 0 where it has ended */
static bool read_frame(int bus)
{
    union {
        char bytes[CMSG_SPACE(sizeof(uint32_t))];
        struct cmsghdr aligned;
    } told;
    struct iovec part = { .iov_base = &unheard, .iov_len = sizeof unheard };
    struct msghdr message = { .msg_iov = &part, .msg_iovlen = 1, .msg_control = &told, .msg_controllen = sizeof told };
    uint32_t all = dropped;
    errno = 0;
    if (recvmsg(bus, &message, 0) != (ssize_t)sizeof unheard) return false;
    for (struct cmsghdr *word = CMSG_FIRSTHDR(&message); word; word = CMSG_NXTHDR(&message, word))
        if (word->cmsg_level == SOL_SOCKET && word->cmsg_type == SO_RXQ_OVFL) memcpy(&all, CMSG_DATA(word), sizeof all);
    miss(all - dropped);
    dropped = all;
    if ((unheard.can_id & CAN_ERR_FLAG) && (unheard.can_id & CAN_ERR_CRTL) && (unheard.data[1] & CAN_ERR_CRTL_RX_OVERFLOW)) miss(1);
    is_unheard = !take();
    return true;
}

/* for how many milliseconds nothing is due */
static int idle(void)
{
    uint64_t at = UINT64_MAX, shared = UINT64_MAX, begun = now();
    if (waits || is_unheard) return 1;
    hidzgula_live_when(&station, begun, &at);
    hidzgula_live_shared_when(&station, begun, &shared);
    at = shared < at ? shared : at;
    return at - begun > (uint64_t)LONGEST * MILLISECOND ? LONGEST : (int)((at - begun + MILLISECOND - 1) / MILLISECOND);
}

static int failed(const char *name, const char *why)
{
    fprintf(stderr, "can_gateway: %s: %s\n", name, why);
    return 1;
}

int main(int argc, char **argv)
{
    const hidzgula_live_settings settings = HIDZGULA_USUAL_LIVE_SETTINGS;
    struct pollfd one = { .fd = argc == 2 ? open_bus(argv[1]) : -1 };
    if (argc != 2) return failed("usage", "can_gateway INTERFACE, as can_gateway can0; - for a socket at standard input");
    if (one.fd < 0) return failed(argv[1], strerror(errno));
    if (hidzgula_live_open(&station, 0x1000000001419908, 249, &settings) != HIDZGULA_DONE || hidzgula_live_share(&station, VIN) != HIDZGULA_DONE)
        return failed(argv[1], "no memory for a station");
    /* what waits is tried again each millisecond: a socket of Linux may say that it can be written where its interface takes nothing */
    for (bool goes_on = write_due(one.fd); goes_on && !ferror(stdout) && !fflush(stdout);) {
        if (is_unheard && !waits) is_unheard = !take();
        one.events = waits || is_unheard ? 0 : POLLIN;
        one.revents = 0;
        poll(&one, 1, idle());
        goes_on = (!one.events || !one.revents || read_frame(one.fd)) && write_due(one.fd) && !lost;
    }
    hidzgula_live_close(&station);
    return failed(argv[1], lost ? "another unit has the address" : errno ? strerror(errno) : "the bus has ended");
}
