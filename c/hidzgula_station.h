/* The proved diagnostic station, listener and simulated control units for SAE J1939, for programs in C11 and C++: version 3.0.0.
 *
 * A program hands over the frames that it reads of one bus, in their order, sends what the station replies, is told what each frame
 * changed, and asks for the lists by NAME. Or it sends nothing, and has a listener hear all that is sent between any two addresses. Or it has
 * simulated units, or a live station that carries out orders, hear those frames with their times, and writes the frames that it asks them for,
 * each when it is due. What each call does is proved of the library (crate station_c), as long as the C side does its part:
 *
 *  - A station is held in a `hidzgula_station`, which begins as HIDZGULA_EMPTY (all its bytes 0). Its members are the library's:
 *    nobody else reads or writes them, and it is never copied or moved, from `hidzgula_open` to `hidzgula_close`. A live station likewise in a
 *    `hidzgula_live`, a listener in a `hidzgula_listener`, a unit in a `hidzgula_unit`, each from its open to its close.
 *  - Each of these is given to one call at a time, from whichever thread: two calls on one are ordered by a lock, by a thread's start
 *    or join, or by an atomic of the default order. Nothing in the library is tied to a thread. Several of them are independent.
 *  - Each pointer points to what its type says: aligned, large enough, not NULL, and no two of one call overlap. Only `change` may be
 *    NULL, and each array (`bytes`, `frames`, `changes`, `heard`, `text`, `bus`, `logged`) anything aligned that is not NULL where it has no elements.
 *    What is written to need not have been set.
 *  - `malloc`, `realloc` and `free` are of one allocator, which aligns a block to each power of two up to 16 that divides its size, as
 *    the C library's does, and nobody else frees what it gave to the library.
 *  - No call comes from a signal handler, or from the forked child of a process with threads.
 *  - A call has 64 KB of stack.
 *
 * Whatever the state of its station, listener or unit and whatever the numbers that it is given, each call then returns. It answers
 * HIDZGULA_DONE, or why it was refused; refused, it has changed nothing, neither those nor what the other pointers point to. Where two reasons
 * hold, the one told is the first in the list at the call. `hidzgula_take_frames` and `hidzgula_listener_take_frames_at` alone may be refused
 * midway, and say so.
 */
#ifndef HIDZGULA_STATION_H
#define HIDZGULA_STATION_H

#include <stdbool.h>
#include <stddef.h>
#include <stdint.h>

#define HIDZGULA_VERSION_MAJOR 3
#define HIDZGULA_VERSION_MINOR 0

#ifdef __cplusplus
extern "C" {
#define HIDZGULA_LAYOUT(holds) static_assert(holds, #holds)
#else
#define HIDZGULA_LAYOUT(holds) _Static_assert(holds, #holds)
#endif

/* What a call answers. 29 is NO_STATION and nothing else: the refusal of that number that a script's answers have, of a code that is not
 * pending, is NOT_PENDING here. */
enum {
    HIDZGULA_DONE = 0,
    HIDZGULA_ID_TOO_LARGE = 1,   /* an identifier of 2^29 or more */
    HIDZGULA_TOO_LONG = 2,       /* more than 8 bytes in a frame, or 1,785 in a message */
    HIDZGULA_NOT_AN_ADDRESS = 7, /* 254 or 255 where an address to hold is asked for; no message of that group and size goes there */
    HIDZGULA_NO_ADDRESS = 22,    /* the station knows no address of that NAME */
    HIDZGULA_NOT_HELD = 23,      /* the station, or the unit, holds no address of its own */
    HIDZGULA_BAD_SETTING = 24,   /* an address above 253, a grant of 0, or a setting of a unit that is out of its range */
    HIDZGULA_PGN_TOO_LARGE = 28, /* a parameter group number of 2^24 or more */
    HIDZGULA_NO_STATION = 29,    /* the handle is empty: not opened, or closed */
    HIDZGULA_HAS_STATION = 30,   /* the handle has an open station */
    HIDZGULA_NO_PLACE = 31,      /* no row at that place; no such entry came, or it has no such code */
    HIDZGULA_NO_KIND = 32,       /* a kind that is none of HIDZGULA_DM1, HIDZGULA_DM2, HIDZGULA_DM6 */
    HIDZGULA_OUT_OF_MEMORY = 33, /* memory was refused */
    HIDZGULA_NOT_KEPT = 34,      /* the entry at that place came, and is none of the newest, which are kept */
    HIDZGULA_NO_ROOM = 44,       /* the array is too short for what is saved */
    HIDZGULA_NOT_SAVED = 45,     /* a station that took what is saved would show something else */

    /* of units alone */
    HIDZGULA_SPN_TOO_LARGE = 9,  /* an SPN above 524,287 */
    HIDZGULA_FMI_TOO_LARGE = 10, /* an FMI above 31 */
    HIDZGULA_MEMORY_FULL = 13,   /* a new code for a fault memory that has 445 already */
    HIDZGULA_NOT_ACTIVE = 14,    /* the code to heal is not active */
    HIDZGULA_NO_UNIT = 35,       /* the handle is empty: not opened, or closed */
    HIDZGULA_HAS_UNIT = 36,      /* the handle has an open unit */
    HIDZGULA_QUEUE_FULL = 37,    /* as much waits to be written as there is room for; of a live station too */
    HIDZGULA_SESSION_OPEN = 38,  /* a session of that kind is open; of a live station another message, or a command, is under way */
    HIDZGULA_NOT_PENDING = 39,   /* the code to go away is not pending */

    /* of listeners alone */
    HIDZGULA_NO_LISTENER = 40,   /* the handle is empty: not opened, or closed */
    HIDZGULA_HAS_LISTENER = 41,  /* the handle has an open listener */

    /* of live stations alone */
    HIDZGULA_ORDER_OPEN = 42,    /* another order is open; for a command also a broadcast of the program's */
    HIDZGULA_NO_GROUP = 43       /* a parameter group that no order asks for, by which one does not clear, or which is not shared */
};

/* The kinds of diagnostic messages, numbered as the messages are; any other number is refused, NO_KIND. */
enum {
    HIDZGULA_DM1 = 1, /* lamps and active trouble codes */
    HIDZGULA_DM2 = 2, /* lamps and previously active trouble codes */
    HIDZGULA_DM6 = 6  /* lamps and pending trouble codes */
};

/* Parameter groups to ask for. */
enum {
    HIDZGULA_PGN_ADDRESS_CLAIMED = 60928, /* the address that is claimed */
    HIDZGULA_PGN_DM1 = 65226,             /* the active codes */
    HIDZGULA_PGN_DM2 = 65227,             /* the previously active codes */
    HIDZGULA_PGN_DM3 = 65228,             /* to clear the previously active codes */
    HIDZGULA_PGN_DM6 = 65231,             /* the pending codes */
    HIDZGULA_PGN_DM11 = 65235             /* to clear the active and the pending codes */
};

/* Room for a station. */
typedef struct {
    void *at;
    bool full;
} hidzgula_station;

#define HIDZGULA_EMPTY { NULL, false }

/* A frame: an identifier of 29 bits, and `length` bytes, 0 to 8. What stands behind those is not read. */
typedef struct {
    uint32_t id;
    uint8_t length;
    uint8_t bytes[8];
} hidzgula_frame;

/* What the station answers: where `withdraw` is 1 and not 0, the frames of earlier replies that were not sent yet are not to be
 * sent; then the first `count` of `frames` are to be sent, 0 to 3, in their order. What stands behind those says nothing. */
typedef struct {
    uint8_t withdraw;
    uint8_t count;
    hidzgula_frame frames[3];
} hidzgula_reply;

/* What a frame or a gap changed of what the station shows. */
enum {
    HIDZGULA_NOTHING = 0,      /* nothing */
    HIDZGULA_CLAIMED = 1,      /* `name` has `address`, 0 to 253, and had not before; see `has_displaced` */
    HIDZGULA_GAVE_UP = 2,      /* `name` has no address: it cannot claim one */
    HIDZGULA_ACKNOWLEDGED = 3, /* `name` acknowledged the group `pgn` to the station, with `control`; see `again` */
    HIDZGULA_LISTED = 4,       /* a message of `name` from `address` is the newest entry of its list of `kind` */
    HIDZGULA_UNREADABLE = 5,   /* a message of `name` and of `kind` from `address` could not be read: it is counted as unread */
    HIDZGULA_UNOWNED = 6,      /* a message of `kind` to all began at `address`, which no NAME has claimed in what was read: it is not listed */
    HIDZGULA_MISSED = 7        /* `count` frames were missed: no address has an owner until NAMEs claim again */
};

/* A change: `what` is one of the above, which names the fields that it sets; each other field is 0.
 *
 * One claim may change two rows: where `has_displaced` is 1, the NAME `displaced` claimed that address before. Where `lost` is 1 it was its
 * address until now, so that it has none any more; else it has claimed another one since, or has none. `control` is 0 positive,
 * 1 negative, 2 access denied, 3 cannot respond now, or another number. `again` is 1 where the last acknowledgment of that NAME was the
 * same, else 0. `kind` is one of HIDZGULA_DM1, HIDZGULA_DM2, HIDZGULA_DM6. */
typedef struct {
    uint64_t name;
    uint64_t displaced;
    uint32_t pgn;
    uint32_t count;
    uint8_t what;
    uint8_t address;
    uint8_t kind;
    uint8_t control;
    uint8_t again;
    uint8_t has_displaced;
    uint8_t lost;
} hidzgula_change;

/* What is known of a NAME: its address where `has_address` is 1, 0 to 253, and its last acknowledgment to the station where `has_ack`
 * is 1: the control byte (0 positive, 1 negative, 2 access denied, 3 cannot respond now) and the parameter group. A flag that is not
 * 1 is 0, and so is what it stands for. */
typedef struct {
    uint64_t name;
    uint8_t has_address;
    uint8_t address;
    uint8_t has_ack;
    uint8_t ack_control;
    uint32_t ack_pgn;
} hidzgula_row_out;

/* A message of a NAME: the first two bytes of a DM1, DM2 or DM6, which are the states of the lamps (from the highest bits: malfunction
 * indicator, red stop, amber warning, protect) and how they flash; and how many trouble codes it has. */
typedef struct {
    uint8_t lamps;
    uint8_t flashes;
    size_t codes;
} hidzgula_entry_out;

/* A trouble code: SPN up to 524,287, FMI up to 31, occurrence count up to 127, which stands for not available. */
typedef struct {
    uint32_t spn;
    uint8_t fmi;
    uint8_t count;
} hidzgula_code_out;

/* When a frame of a log was seen, in microseconds below 10^16 as the line has it, or HIDZGULA_NO_TIME where it has none; and the number of
 * the line among those that the call read, from 1. */
typedef struct {
    uint64_t time;
    uint64_t line;
} hidzgula_logged;

#define HIDZGULA_NO_TIME UINT64_MAX

/* What the last line that was read told, beside frames. */
enum {
    HIDZGULA_READ = 0,        /* nothing more */
    HIDZGULA_READ_MISSED = 1, /* that frames of the bus were missed: `missed` */
    HIDZGULA_READ_BAD = 2     /* it begins as a line of a log, and is none: `why` */
};

/* Why a line is bad. */
enum {
    HIDZGULA_BAD_TOO_LONG = 1,        /* more than 4,096 bytes */
    HIDZGULA_BAD_NO_TEXT = 2,         /* no UTF-8 */
    HIDZGULA_BAD_NO_TIME = 3,         /* no time between its parentheses */
    HIDZGULA_BAD_NO_BUS = 4,          /* no bus behind the time */
    HIDZGULA_BAD_NO_FRAME = 5,        /* no frame behind the bus */
    HIDZGULA_BAD_NO_HASH = 6,         /* no # behind the identifier */
    HIDZGULA_BAD_ID_DIGITS = 7,       /* neither three nor eight digits of identifier */
    HIDZGULA_BAD_ID_TOO_LARGE = 8,    /* an identifier above 1FFFFFFF */
    HIDZGULA_BAD_TOO_MANY_BYTES = 9,  /* more than 8 bytes */
    HIDZGULA_BAD_BYTE_COUNT = 10,     /* other bytes than its brackets tell of */
    HIDZGULA_BAD_ODD_DIGITS = 11,     /* an odd number of digits */
    HIDZGULA_BAD_NO_DIGIT = 12,       /* another character than a hexadecimal digit */
    HIDZGULA_BAD_WORDS_BEHIND = 13    /* words behind the data */
};

/* How far a log was read: so many bytes, which are whole lines, so many frames of them, and so many lines; and what the last line told. A
 * field that `what` does not name is 0. */
typedef struct {
    size_t bytes;
    size_t frames;
    uint64_t lines;
    uint32_t missed;
    uint8_t what;
    uint8_t why;
} hidzgula_read;

/* Room for a simulated unit; it begins as HIDZGULA_EMPTY too. */
typedef struct {
    void *at;
    bool full;
} hidzgula_unit;

/* What a unit keeps to; times are in microseconds.
 *  - `gap`: how long it is at least from a packet of a broadcast to the next, 10,000 to 200,000: 50 to 200 ms by SAE J1939-21, 10 to 200 ms by
 *    ISO 11783-3 and later editions (from memory).
 *  - `settle`: how long it is from the claim of a new address to anything but a claim, up to 1,000,000 (J1939-81: 250,000).
 *  - `always`: where it is 0, the unit sends its DM1 each second while a code is active or a lamp is lit, and once after that; else always.
 *  - `guarded`: where it is 0, the unit clears its codes and holds a commanded address when the bus asks it to, and sends DM1 of its own
 *    accord; else it does none of these. */
typedef struct {
    uint64_t gap;
    uint64_t settle;
    uint8_t always;
    uint8_t guarded;
} hidzgula_unit_settings;

#define HIDZGULA_USUAL_SETTINGS { 50000, 250000, 0, 0 }

/* How many frames a unit put so far, and how many of these were written, which is that `hidzgula_unit_next` gave them, were withdrawn, and
 * wait: `put` is the sum of the other three. */
typedef struct {
    uint64_t put;
    uint64_t written;
    uint64_t withdrawn;
    uint64_t waiting;
} hidzgula_unit_counts_out;

/* Room for a live station; it begins as HIDZGULA_EMPTY too. */
typedef struct {
    void *at;
    bool full;
} hidzgula_live;

/* A message of a group that a program shares with a live station. `name` is the NAME that held `source` from its first to its last frame, where `has_name`
 * is 1; else no claim of that address was heard. Behind its `size` bytes, up to 1,785, there are 0. */
typedef struct {
    uint64_t name;
    uint32_t pgn;
    uint16_t size;
    uint8_t source;
    uint8_t has_name;
    uint8_t bytes[1785];
} hidzgula_message;

/* What a live station keeps to; times are in microseconds.
 *  - `gap`: how long it is at least from a frame of a command, or of a broadcast of yours, to the next, 10,000 to 200,000: 50 to 200 ms by SAE
 *    J1939-21, 10 to 200 ms by ISO 11783-3 and later editions (from memory).
 *  - `settle`: how long it is from the claim of a new address to anything but a claim, up to 1,000,000 (J1939-81: 250,000).
 *  - `keep`: of each list it keeps the newest so many messages, none where it is 0.
 *  - `grant`: how many packets it lets a sender send at once at most, 1 to 255 (J1939-21). */
typedef struct {
    uint64_t gap;
    uint64_t settle;
    uint32_t keep;
    uint8_t grant;
} hidzgula_live_settings;

#define HIDZGULA_USUAL_LIVE_SETTINGS { 50000, 250000, 16, 255 }

/* Of a live station alone: nothing else changed, and somebody else sends from the station's own address. It is told only once a frame of its own
 * came back to the station. */
enum { HIDZGULA_STRANGER = 9 };

/* What became of an order. */
enum {
    HIDZGULA_NO_ORDER = 0,      /* none was given */
    HIDZGULA_OPEN = 1,          /* it is open */
    HIDZGULA_ANSWERED = 2,      /* a message that began after the request ended, which is the newest of its list; or a claim came */
    HIDZGULA_UNREAD = 3,        /* a message that began after the request ended, and cannot be read */
    HIDZGULA_POSITIVE = 4,      /* the unit says that it cleared */
    HIDZGULA_REFUSED = 5,       /* the unit refused: `detail` is the control byte, 1 negative, 2 access denied, or another number */
    HIDZGULA_BUSY = 6,          /* the unit could not answer now, three times */
    HIDZGULA_OBEYED = 7,        /* the NAME holds the address that it was commanded to hold */
    HIDZGULA_NO_SUCH_UNIT = 8,  /* no address of the NAME is known, though claims were asked for */
    HIDZGULA_SILENT = 9,        /* nothing came: what was asked three times, or cleared or commanded once, each for 1,250 ms */
    HIDZGULA_IN_DOUBT = 10,     /* a clear was written, and nobody knows whether it was done: `detail` is one of those below */
    HIDZGULA_LOST_ADDRESS = 11, /* the station holds no address */
    HIDZGULA_CUT_OFF = 12       /* it was ended first: `detail` is 1 where it was written, else 0 */
};

/* Why a clear is in doubt. */
enum {
    HIDZGULA_DOUBT_UNIT = 1,    /* the NAME moved, gave up, or another NAME claimed its address */
    HIDZGULA_DOUBT_MISSED = 2,  /* frames were missed */
    HIDZGULA_DOUBT_ADDRESS = 3, /* another NAME claimed the station's own address */
    HIDZGULA_DOUBT_STRANGER = 4 /* somebody else sends from the station's own address */
};

/* The order that is open, or what came of the newest one: `what` is one of HIDZGULA_NO_ORDER to HIDZGULA_CUT_OFF. `pgn` is the group that is asked
 * for, of a command 65240, and `name` the NAME of its unit where `has_name` is 1. `commanded` is the address that a command names. Once it ended,
 * `tries` is how often it was written; `address` is where to, where `has_address` is 1; and `after` how many microseconds ago, the last time,
 * where `has_after` is 1. `left`, with `left_detail`, is what came of asking what a clear left: a message, DM2 behind DM3 and DM1 behind DM11,
 * which is the newest of its list where `left` is HIDZGULA_ANSWERED. A unit is clear where `what` is HIDZGULA_POSITIVE and that message has no code.
 * A field that is not named is 0; so is `detail` where none is told of above. */
typedef struct {
    uint64_t name;
    uint64_t after;
    uint32_t pgn;
    uint8_t what;
    uint8_t detail;
    uint8_t left;
    uint8_t left_detail;
    uint8_t tries;
    uint8_t has_name;
    uint8_t has_address;
    uint8_t address;
    uint8_t has_after;
    uint8_t commanded;
} hidzgula_verdict;

/* Room for a listener; it begins as HIDZGULA_EMPTY too. */
typedef struct {
    void *at;
    bool full;
} hidzgula_listener;

/* Whose a message is, for a listener: where `has_name` is 1, the NAME's that had claimed its source address last; where it is 0, that of
 * `address`, which no NAME had claimed since the last gap, with the number of gaps before: after a gap the address may be another unit's. What
 * `has_name` does not name is 0, and is not read. */
typedef struct {
    uint64_t name;
    uint64_t gaps;
    uint8_t has_name;
    uint8_t address;
} hidzgula_who;

/* Why a message cannot be read, or not whole. */
enum {
    HIDZGULA_WHY_LENGTH = 15, /* not even its two bytes of lamps are there */
    HIDZGULA_WHY_IN_PART = 18 /* it is listed, as far as it can be read: `hidzgula_sent_out` tells what cannot */
};

/* Of a listener alone: nothing else changed, and a message of several packets broke. It was half read, and is neither that nor whole now. */
enum { HIDZGULA_BROKEN = 8 };

/* Why it broke (SAE J1939-21, 5.10). */
enum {
    HIDZGULA_BROKEN_LATE = 1,    /* a frame of it came too late (5.10.3) */
    HIDZGULA_BROKEN_PACKET = 2,  /* the packet `number` came, which is not the next one */
    HIDZGULA_BROKEN_LENGTH = 3,  /* the next packet, `number`, has not 8 bytes */
    HIDZGULA_BROKEN_DIFFERS = 4, /* the packet `number` came again, as it was asked for, with other bytes */
    HIDZGULA_BROKEN_ABORT = 5,   /* the unit at `by` aborted it, for `reason`: 1 in another session, 2 resources, 3 a time ran out, .. */
    HIDZGULA_BROKEN_ANEW = 6,    /* another message was announced between the same two */
    HIDZGULA_BROKEN_CLAIM = 7    /* another NAME claimed the address that it came from */
};

/* What a frame or a gap changed of what a listener shows: `what` is one of HIDZGULA_NOTHING to HIDZGULA_BROKEN, which names the fields that it
 * sets; each other field is 0, but for `broken`.
 *  - CLAIMED: the NAME `who` has the address `source`; `displaced`, `has_displaced` and `lost` as in a `hidzgula_change`.
 *  - GAVE_UP: the NAME `who` has no address.
 *  - ACKNOWLEDGED: the NAME `who` acknowledged `pgn` with `control`, from `source` to `to`, to the one at `requester`; `again` as in a change.
 *  - LISTED, UNREADABLE: a message of `who` and of `kind`, from `source` to `to` (255: to all), is the newest entry of its list, where `why` is
 *    HIDZGULA_WHY_IN_PART if it could not be read whole, else 0; or it could not be read, for `why`.
 *  - UNOWNED: a message of `kind` to all began at `source`, which no NAME has claimed in what was read: it is listed under that address.
 *  - MISSED: `count` frames were missed; what was half read is let go.
 *  - BROKEN: a message of `who` and of `kind`, from `source` to `to` (255: to all), broke for `why`, one of HIDZGULA_BROKEN_LATE to
 *    HIDZGULA_BROKEN_CLAIM, when `read` of its `of` packets were read.
 * `broken` is how many messages the frame broke, up to 255, whatever it changed: those that the record does not tell,
 * `hidzgula_listener_broken` does. */
typedef struct {
    hidzgula_who who;
    uint64_t displaced;
    uint32_t pgn;
    uint32_t count;
    uint8_t what;
    uint8_t kind;
    uint8_t source;
    uint8_t to;
    uint8_t why;
    uint8_t control;
    uint8_t requester;
    uint8_t again;
    uint8_t has_displaced;
    uint8_t lost;
    uint8_t read;
    uint8_t of;
    uint8_t number;
    uint8_t reason;
    uint8_t by;
    uint8_t broken;
} hidzgula_heard;

/* A message that a listener listed: its lamps, as in a `hidzgula_entry_out`; the address that it went to, 255 for all; and how many codes can be
 * read. Where `in_part` is 1 and not 0 it is not as SAE J1939-73 has it, and could be read in part: `padding` groups of four bytes FF and `zeros`
 * of 00 among several, `older` codes in an older layout of the SPN, which are not read, `bytes_behind` the last group, and `bytes_missing` to 8.
 * These are 0 where `in_part` is, and may be where it is not: more than 445 codes. */
typedef struct {
    uint8_t lamps;
    uint8_t flashes;
    uint8_t to;
    uint8_t in_part;
    uint16_t padding;
    uint16_t zeros;
    uint16_t older;
    uint8_t bytes_behind;
    uint8_t bytes_missing;
    size_t codes;
} hidzgula_sent_out;

HIDZGULA_LAYOUT(sizeof(size_t) == 8);
HIDZGULA_LAYOUT(sizeof(bool) == 1);
HIDZGULA_LAYOUT(sizeof(hidzgula_station) == 16);
HIDZGULA_LAYOUT(offsetof(hidzgula_station, full) == 8);
HIDZGULA_LAYOUT(sizeof(hidzgula_frame) == 16);
HIDZGULA_LAYOUT(offsetof(hidzgula_frame, length) == 4);
HIDZGULA_LAYOUT(offsetof(hidzgula_frame, bytes) == 5);
HIDZGULA_LAYOUT(sizeof(hidzgula_reply) == 52);
HIDZGULA_LAYOUT(offsetof(hidzgula_reply, count) == 1);
HIDZGULA_LAYOUT(offsetof(hidzgula_reply, frames) == 4);
HIDZGULA_LAYOUT(sizeof(hidzgula_change) == 32);
HIDZGULA_LAYOUT(offsetof(hidzgula_change, displaced) == 8);
HIDZGULA_LAYOUT(offsetof(hidzgula_change, pgn) == 16);
HIDZGULA_LAYOUT(offsetof(hidzgula_change, count) == 20);
HIDZGULA_LAYOUT(offsetof(hidzgula_change, what) == 24);
HIDZGULA_LAYOUT(offsetof(hidzgula_change, address) == 25);
HIDZGULA_LAYOUT(offsetof(hidzgula_change, kind) == 26);
HIDZGULA_LAYOUT(offsetof(hidzgula_change, control) == 27);
HIDZGULA_LAYOUT(offsetof(hidzgula_change, again) == 28);
HIDZGULA_LAYOUT(offsetof(hidzgula_change, has_displaced) == 29);
HIDZGULA_LAYOUT(offsetof(hidzgula_change, lost) == 30);
HIDZGULA_LAYOUT(sizeof(hidzgula_row_out) == 16);
HIDZGULA_LAYOUT(offsetof(hidzgula_row_out, has_address) == 8);
HIDZGULA_LAYOUT(offsetof(hidzgula_row_out, address) == 9);
HIDZGULA_LAYOUT(offsetof(hidzgula_row_out, has_ack) == 10);
HIDZGULA_LAYOUT(offsetof(hidzgula_row_out, ack_control) == 11);
HIDZGULA_LAYOUT(offsetof(hidzgula_row_out, ack_pgn) == 12);
HIDZGULA_LAYOUT(sizeof(hidzgula_entry_out) == 16);
HIDZGULA_LAYOUT(offsetof(hidzgula_entry_out, flashes) == 1);
HIDZGULA_LAYOUT(offsetof(hidzgula_entry_out, codes) == 8);
HIDZGULA_LAYOUT(sizeof(hidzgula_code_out) == 8);
HIDZGULA_LAYOUT(offsetof(hidzgula_code_out, fmi) == 4);
HIDZGULA_LAYOUT(offsetof(hidzgula_code_out, count) == 5);
HIDZGULA_LAYOUT(sizeof(hidzgula_logged) == 16);
HIDZGULA_LAYOUT(offsetof(hidzgula_logged, line) == 8);
HIDZGULA_LAYOUT(sizeof(hidzgula_read) == 32);
HIDZGULA_LAYOUT(offsetof(hidzgula_read, frames) == 8);
HIDZGULA_LAYOUT(offsetof(hidzgula_read, lines) == 16);
HIDZGULA_LAYOUT(offsetof(hidzgula_read, missed) == 24);
HIDZGULA_LAYOUT(offsetof(hidzgula_read, what) == 28);
HIDZGULA_LAYOUT(offsetof(hidzgula_read, why) == 29);
HIDZGULA_LAYOUT(sizeof(hidzgula_listener) == 16);
HIDZGULA_LAYOUT(offsetof(hidzgula_listener, full) == 8);
HIDZGULA_LAYOUT(sizeof(hidzgula_who) == 24);
HIDZGULA_LAYOUT(offsetof(hidzgula_who, gaps) == 8);
HIDZGULA_LAYOUT(offsetof(hidzgula_who, has_name) == 16);
HIDZGULA_LAYOUT(offsetof(hidzgula_who, address) == 17);
HIDZGULA_LAYOUT(sizeof(hidzgula_heard) == 56);
HIDZGULA_LAYOUT(offsetof(hidzgula_heard, displaced) == 24);
HIDZGULA_LAYOUT(offsetof(hidzgula_heard, pgn) == 32);
HIDZGULA_LAYOUT(offsetof(hidzgula_heard, count) == 36);
HIDZGULA_LAYOUT(offsetof(hidzgula_heard, what) == 40);
HIDZGULA_LAYOUT(offsetof(hidzgula_heard, kind) == 41);
HIDZGULA_LAYOUT(offsetof(hidzgula_heard, source) == 42);
HIDZGULA_LAYOUT(offsetof(hidzgula_heard, to) == 43);
HIDZGULA_LAYOUT(offsetof(hidzgula_heard, why) == 44);
HIDZGULA_LAYOUT(offsetof(hidzgula_heard, control) == 45);
HIDZGULA_LAYOUT(offsetof(hidzgula_heard, requester) == 46);
HIDZGULA_LAYOUT(offsetof(hidzgula_heard, again) == 47);
HIDZGULA_LAYOUT(offsetof(hidzgula_heard, has_displaced) == 48);
HIDZGULA_LAYOUT(offsetof(hidzgula_heard, lost) == 49);
HIDZGULA_LAYOUT(offsetof(hidzgula_heard, read) == 50);
HIDZGULA_LAYOUT(offsetof(hidzgula_heard, of) == 51);
HIDZGULA_LAYOUT(offsetof(hidzgula_heard, number) == 52);
HIDZGULA_LAYOUT(offsetof(hidzgula_heard, reason) == 53);
HIDZGULA_LAYOUT(offsetof(hidzgula_heard, by) == 54);
HIDZGULA_LAYOUT(offsetof(hidzgula_heard, broken) == 55);
HIDZGULA_LAYOUT(sizeof(hidzgula_sent_out) == 24);
HIDZGULA_LAYOUT(offsetof(hidzgula_sent_out, flashes) == 1);
HIDZGULA_LAYOUT(offsetof(hidzgula_sent_out, to) == 2);
HIDZGULA_LAYOUT(offsetof(hidzgula_sent_out, in_part) == 3);
HIDZGULA_LAYOUT(offsetof(hidzgula_sent_out, padding) == 4);
HIDZGULA_LAYOUT(offsetof(hidzgula_sent_out, zeros) == 6);
HIDZGULA_LAYOUT(offsetof(hidzgula_sent_out, older) == 8);
HIDZGULA_LAYOUT(offsetof(hidzgula_sent_out, bytes_behind) == 10);
HIDZGULA_LAYOUT(offsetof(hidzgula_sent_out, bytes_missing) == 11);
HIDZGULA_LAYOUT(offsetof(hidzgula_sent_out, codes) == 16);
HIDZGULA_LAYOUT(sizeof(hidzgula_live) == 16);
HIDZGULA_LAYOUT(offsetof(hidzgula_live, full) == 8);
HIDZGULA_LAYOUT(sizeof(hidzgula_message) == 1808);
HIDZGULA_LAYOUT(offsetof(hidzgula_message, pgn) == 8);
HIDZGULA_LAYOUT(offsetof(hidzgula_message, size) == 12);
HIDZGULA_LAYOUT(offsetof(hidzgula_message, source) == 14);
HIDZGULA_LAYOUT(offsetof(hidzgula_message, has_name) == 15);
HIDZGULA_LAYOUT(offsetof(hidzgula_message, bytes) == 16);
HIDZGULA_LAYOUT(sizeof(hidzgula_live_settings) == 24);
HIDZGULA_LAYOUT(offsetof(hidzgula_live_settings, settle) == 8);
HIDZGULA_LAYOUT(offsetof(hidzgula_live_settings, keep) == 16);
HIDZGULA_LAYOUT(offsetof(hidzgula_live_settings, grant) == 20);
HIDZGULA_LAYOUT(sizeof(hidzgula_verdict) == 32);
HIDZGULA_LAYOUT(offsetof(hidzgula_verdict, after) == 8);
HIDZGULA_LAYOUT(offsetof(hidzgula_verdict, pgn) == 16);
HIDZGULA_LAYOUT(offsetof(hidzgula_verdict, what) == 20);
HIDZGULA_LAYOUT(offsetof(hidzgula_verdict, detail) == 21);
HIDZGULA_LAYOUT(offsetof(hidzgula_verdict, left) == 22);
HIDZGULA_LAYOUT(offsetof(hidzgula_verdict, left_detail) == 23);
HIDZGULA_LAYOUT(offsetof(hidzgula_verdict, tries) == 24);
HIDZGULA_LAYOUT(offsetof(hidzgula_verdict, has_name) == 25);
HIDZGULA_LAYOUT(offsetof(hidzgula_verdict, has_address) == 26);
HIDZGULA_LAYOUT(offsetof(hidzgula_verdict, address) == 27);
HIDZGULA_LAYOUT(offsetof(hidzgula_verdict, has_after) == 28);
HIDZGULA_LAYOUT(offsetof(hidzgula_verdict, commanded) == 29);
HIDZGULA_LAYOUT(sizeof(hidzgula_unit) == 16);
HIDZGULA_LAYOUT(offsetof(hidzgula_unit, full) == 8);
HIDZGULA_LAYOUT(sizeof(hidzgula_unit_settings) == 24);
HIDZGULA_LAYOUT(offsetof(hidzgula_unit_settings, settle) == 8);
HIDZGULA_LAYOUT(offsetof(hidzgula_unit_settings, always) == 16);
HIDZGULA_LAYOUT(offsetof(hidzgula_unit_settings, guarded) == 17);
HIDZGULA_LAYOUT(sizeof(hidzgula_unit_counts_out) == 32);
HIDZGULA_LAYOUT(offsetof(hidzgula_unit_counts_out, written) == 8);
HIDZGULA_LAYOUT(offsetof(hidzgula_unit_counts_out, withdrawn) == 16);
HIDZGULA_LAYOUT(offsetof(hidzgula_unit_counts_out, waiting) == 24);
#undef HIDZGULA_LAYOUT

/* Opens a station of this NAME, which holds `address`, 0 to 253, and lets a sender send at most `grant` packets at once, 1 to 255.
 * Of each list, one by NAME and kind, it keeps the newest `keep` messages and counts all; where that is 0 it keeps none, and UINT32_MAX
 * keeps all that a program will see. So what it takes of memory is bounded by the NAMEs (`hidzgula_make_room`) and by `keep`.
 * It has read nothing. A gateway that sends begins with the frame of `hidzgula_claim`.
 * BAD_SETTING, HAS_STATION, OUT_OF_MEMORY. */
uint32_t hidzgula_open(hidzgula_station *station, uint64_t name, uint8_t address, uint8_t grant, uint32_t keep);

/* Closes a station and frees all its memory; does nothing where there is none. */
void hidzgula_close(hidzgula_station *station);

/* Makes room for one more NAME, of which a station is to have `most` at most: called before each frame, it never has more. Where it has as many, it
 * is begun anew, and `anew` is 1, else 0: it holds its address as before, and knows the NAMEs that hold others, if these are fewer than `most`,
 * so that no message is listed under another unit. Its lists, counts and other rows, and what is half read, are gone: whoever wants them asks
 * before. Before `n` frames in a row room is made with `most` less `n` - 1.
 * BAD_SETTING for `most` 0, NO_STATION; and where it is to be begun anew NOT_HELD while it holds no address, so that it is to be closed, and opened
 * at another one, or OUT_OF_MEMORY. A frame that is handed over all the same may bring one NAME more. */
uint32_t hidzgula_make_room(hidzgula_station *station, size_t most, uint8_t *anew);

/* What the next two call, with a `change` that is not NULL: for programs that bind the archive's names without this header. */
uint32_t hidzgula_take_frame_telling(
    hidzgula_station *station, uint32_t id, const uint8_t *bytes, size_t length, hidzgula_reply *reply, hidzgula_change *change);
uint32_t hidzgula_take_gap_telling(hidzgula_station *station, uint32_t count, hidzgula_reply *reply, hidzgula_change *change);

/* The station takes a frame that was read of the bus: its 29-bit identifier, and `length` bytes. Frames with 11-bit identifiers,
 * remote frames and error frames are not handed over; nor are the station's own, which it knows. `change` is what the frame changed,
 * or NULL where nobody asks.
 * ID_TOO_LARGE, TOO_LONG, NO_STATION, OUT_OF_MEMORY. After OUT_OF_MEMORY the frame may be handed over again, or be counted as
 * missed by `hidzgula_take_gap`. */
static inline uint32_t hidzgula_take_frame(
    hidzgula_station *station, uint32_t id, const uint8_t *bytes, size_t length, hidzgula_reply *reply, hidzgula_change *change)
{
    hidzgula_change unread;
    return hidzgula_take_frame_telling(station, id, bytes, length, reply, change ? change : &unread);
}

/* The station takes frames that were read of the bus, in their order, each as `hidzgula_take_frame` does: so that a log, or what a driver
 * hands over at once, is one call. `taken` is how many it took; the change of each stands at its place in `changes`, and what stands behind
 * those is as it was. It stops
 *  - behind the first frame to which the station replies, so that the reply can be sent before the next one is taken;
 *  - where `room`, the number of `changes`, is full;
 *  - at the first frame that is refused: those before it are taken, and what is answered is why it was refused.
 * `reply` is the reply to the last frame that was taken; where none was, it says that nothing is to be withdrawn or sent. So the
 * caller sends `reply`, looks at `taken` changes, and goes on at `frames + taken`: with the frame that was refused again, or with the one
 * behind it.
 * NO_STATION, whatever the frames are, and then nothing is written; ID_TOO_LARGE, TOO_LONG, OUT_OF_MEMORY of the frame at `taken`. */
uint32_t hidzgula_take_frames(hidzgula_station *station, const hidzgula_frame *frames, size_t count, hidzgula_change *changes, size_t room,
    hidzgula_reply *reply, size_t *taken);

/* Reads the whole lines of a text that candump wrote (or log2long, or cansend reads), or of a part of it, from its beginning, as the program's
 * `watch` reads them. A line ends with LF. The frames of SAE J1939 of the bus whose name `bus` has, as "can0", stand in `frames`, in their
 * order, as `hidzgula_take_frames` and `hidzgula_listener_take_frames_at` take them, and in `logged` when each was seen; where `bus_length` is 0,
 * those of every bus, and of lines that name none. What stands behind them is as it was. Other buses, frames that are none of SAE J1939 and notes
 * are passed over. It stops
 *  - where `frames` or `logged` is full;
 *  - where no whole line is left: what is left of the text stands before what comes next, and behind the last line of a log without LF
 *    its caller puts one;
 *  - behind a line that tells that frames were missed, which is for `hidzgula_take_gap` or `hidzgula_listener_missed_at` then, and behind one
 *    that is bad, which `watch` takes for one frame missed.
 * So the caller hands `frames` to the station or the listener, looks at `read`, and goes on at `text + read->bytes`. It takes no memory, and is not refused. */
void hidzgula_read_log(const char *text, size_t length, const char *bus, size_t bus_length, hidzgula_frame *frames, size_t room,
    hidzgula_logged *logged, size_t logged_room, hidzgula_read *read);

/* The station is told that `count` frames of the bus were missed: it forgets which NAME owns which address, and all messages that
 * are half read, until units claim again. Its reply is a claim, and a request for the claims of all. `change` says MISSED and how many,
 * or is NULL.
 * NO_STATION, OUT_OF_MEMORY. */
static inline uint32_t hidzgula_take_gap(hidzgula_station *station, uint32_t count, hidzgula_reply *reply, hidzgula_change *change)
{
    hidzgula_change unread;
    return hidzgula_take_gap_telling(station, count, reply, change ? change : &unread);
}

/* The station's claim of its address, or its cannot claim where it holds none: what a station sends first.
 * NO_STATION. */
uint32_t hidzgula_claim(hidzgula_station *station, hidzgula_frame *frame);

/* The station's own address: `has` is 1 and `address` is 0 to 253 where it holds one, else both are 0.
 * NO_STATION. */
uint32_t hidzgula_held(hidzgula_station *station, uint8_t *has, uint8_t *address);

/* Asks the unit of a NAME for a parameter group, below 2^24: `reply` has the request. A group to clear codes clears them at units
 * that agree.
 * PGN_TOO_LARGE, NO_STATION, NOT_HELD, NO_ADDRESS, OUT_OF_MEMORY. */
uint32_t hidzgula_ask(hidzgula_station *station, uint64_t name, uint32_t pgn, hidzgula_reply *reply);

/* Asks all units for a parameter group, below 2^24: `reply` has the request.
 * PGN_TOO_LARGE, NO_STATION, NOT_HELD, OUT_OF_MEMORY. */
uint32_t hidzgula_ask_all(hidzgula_station *station, uint32_t pgn, hidzgula_reply *reply);

/* Commands the unit of a NAME to hold an address, 0 to 253: `reply` has three frames, of a broadcast of nine bytes.
 * NO_STATION, NOT_AN_ADDRESS, NOT_HELD, OUT_OF_MEMORY. */
uint32_t hidzgula_command(hidzgula_station *station, uint64_t name, uint8_t address, hidzgula_reply *reply);

/* How many NAMEs have a row: those whose claims were read.
 * NO_STATION. */
uint32_t hidzgula_rows(hidzgula_station *station, size_t *count);

/* The row at a place, from 0, in the order of the NAMEs' first claims.
 * NO_STATION, NO_PLACE. */
uint32_t hidzgula_row(hidzgula_station *station, size_t place, hidzgula_row_out *row);

/* How many messages of a kind came under a NAME, whatever is kept of them, up to the greatest 64-bit number; 0 for a NAME that has no
 * row. The last of them, up to `keep`, are kept.
 * NO_KIND, NO_STATION. */
uint32_t hidzgula_entries(hidzgula_station *station, uint64_t name, uint8_t kind, uint64_t *count);

/* The message at a place of that list, from 0, the oldest of all that came first: the newest is at the count less one. A message keeps
 * its place while others come.
 * NO_KIND, NO_STATION, NOT_KEPT where it came and is none of the newest `keep`, NO_PLACE where it never came. */
uint32_t hidzgula_entry(hidzgula_station *station, uint64_t name, uint8_t kind, uint64_t place, hidzgula_entry_out *entry);

/* The trouble code at a place of the message at the place `entry`, both from 0, in the order of the message.
 * NO_KIND, NO_STATION, NOT_KEPT where that message came and is none of the newest `keep`, NO_PLACE where it never came, or has no such
 * code. */
uint32_t hidzgula_code(hidzgula_station *station, uint64_t name, uint8_t kind, uint64_t entry, size_t place, hidzgula_code_out *code);

/* How many frames were missed, and how many messages ended that could not be read; each up to the greatest 64-bit number.
 * NO_STATION. */
uint32_t hidzgula_counts(hidzgula_station *station, uint64_t *missed, uint64_t *unread);

/* Saves what the station knows, for a program that is started again: `count` is how many frames that is, and so many of `frames`, of which there are
 * `room`, are they; `hidzgula_restore` takes them. With a `room` of 0 it says how many there are.
 * NO_STATION, NOT_HELD, OUT_OF_MEMORY, NOT_SAVED, NO_ROOM, and then `count` is written, and nothing else. */
uint32_t hidzgula_save(hidzgula_station *station, hidzgula_frame *frames, size_t room, size_t *count);

/* Hands frames that were saved to a station that was just opened, under the same NAME, at the address that the one which was saved held, and with the
 * same `keep`; and then a gap. It shows the same NAMEs in the same order, their last acknowledgments, and the messages that were kept of each list. No
 * address has an owner until NAMEs claim again, so that no message is put under a wrong one. Places in lists and counts begin anew, with one frame
 * missed. The station's claim is to be sent then, and a request for the claims of all, as behind each gap: `hidzgula_claim`, `hidzgula_ask_all`.
 * ID_TOO_LARGE, TOO_LONG, NO_STATION, OUT_OF_MEMORY. Refused, it has part of what was saved: it is to be closed. */
static inline uint32_t hidzgula_restore(hidzgula_station *station, const hidzgula_frame *frames, size_t count)
{
    hidzgula_reply reply;
    hidzgula_change change;
    for (size_t i = 0, taken; i < count; i++) {
        uint32_t status = hidzgula_take_frames(station, frames + i, 1, &change, 1, &reply, &taken);
        if (status != HIDZGULA_DONE) return status;
    }
    return hidzgula_take_gap_telling(station, 1, &reply, &change);
}

/* ---- A listener
 *
 * It hears the messages between any two addresses, sends nothing and has no place on the bus: no NAME, no address. It lists each message under
 * its unit (`hidzgula_who`), as the program's `watch` does. `now` is the time at which a frame was read, in microseconds of any one clock, or
 * HIDZGULA_NO_TIME. A packet that came too late for its message is not read, nor is one that came again as it was asked for (SAE J1939-21,
 * 5.10.3). Where a time is not known, nothing is late, so that a loss of which nobody tells can make one message of two. */

/* Opens a listener, which has heard nothing. Of each list, one by unit and kind, it keeps the newest `keep` messages and counts all; where that
 * is 0 it keeps none, and UINT32_MAX keeps all that a program will see. So what it takes of memory is bounded by the units and by `keep`.
 * HAS_LISTENER, OUT_OF_MEMORY. */
uint32_t hidzgula_listener_open(hidzgula_listener *listener, uint32_t keep);

/* Closes a listener and frees all its memory; does nothing where there is none. */
void hidzgula_listener_close(hidzgula_listener *listener);

/* Makes room for one more NAME and one more unit that has lists, of which a listener is to have `most` at most, as `hidzgula_make_room`. One that is
 * begun anew knows the NAMEs that hold addresses, if these are fewer than `most`; its other rows, all lists and counts, and messages under
 * way, are gone. It numbers the gaps on, with one more, and the messages that break, so that a `hidzgula_who` stands for one unit.
 * BAD_SETTING for `most` 0, NO_LISTENER, OUT_OF_MEMORY. */
uint32_t hidzgula_listener_make_room(hidzgula_listener *listener, size_t most, uint8_t *anew);

/* The listener takes a frame that was read of the bus at `now`: its 29-bit identifier, and `length` bytes. Frames with 11-bit identifiers,
 * remote frames and error frames are not handed over. `heard` is what the frame changed.
 * ID_TOO_LARGE, TOO_LONG, NO_LISTENER, OUT_OF_MEMORY. After OUT_OF_MEMORY the frame may be handed over again, or be counted as missed. */
uint32_t hidzgula_listener_take_at(
    hidzgula_listener *listener, uint64_t now, uint32_t id, const uint8_t *bytes, size_t length, hidzgula_heard *heard);

/* The listener takes frames that were read of the bus, in their order, each as `hidzgula_listener_take_at` does at the `time` that stands at
 * its place in `logged`, as `hidzgula_read_log` writes it. `taken` is how many it took; what each changed stands at its place in `heard`, and
 * what stands behind those is as it was. It stops where the times or the places, `logged_count` and `room`, are used up; behind the first frame
 * that broke more messages than its record tells, so that `hidzgula_listener_broken` can be asked; and at the first frame that is refused: those
 * before it are taken, and what is answered is why it was refused.
 * NO_LISTENER, and then nothing is written; ID_TOO_LARGE, TOO_LONG, OUT_OF_MEMORY of the frame at `taken`. */
uint32_t hidzgula_listener_take_frames_at(hidzgula_listener *listener, const hidzgula_frame *frames, size_t count, const hidzgula_logged *logged,
    size_t logged_count, hidzgula_heard *heard, size_t room, size_t *taken);

/* The listener is told at `now` that `count` frames of the bus were missed: it forgets which NAME owns which address, and all messages that are
 * half read, whatever the time, until units claim again. `heard` says MISSED and how many.
 * NO_LISTENER, OUT_OF_MEMORY. */
uint32_t hidzgula_listener_missed_at(hidzgula_listener *listener, uint64_t now, uint32_t count, hidzgula_heard *heard);

/* The message at a place, from 0, of those that the newest frame broke: `heard` says BROKEN. A gap breaks none, and forgets them.
 * NO_LISTENER, NO_PLACE. */
uint32_t hidzgula_listener_broken(hidzgula_listener *listener, size_t place, hidzgula_heard *heard);

/* How many frames were missed, and how many messages ended that could not be read whole, those that are listed in part among them; each up to
 * the greatest 64-bit number.
 * NO_LISTENER. */
uint32_t hidzgula_listener_counts(hidzgula_listener *listener, uint64_t *missed, uint64_t *unread);

/* How many NAMEs have a row: those whose claims were read.
 * NO_LISTENER. */
uint32_t hidzgula_listener_rows(hidzgula_listener *listener, size_t *count);

/* The row at a place, from 0, in the order of the NAMEs' first claims; its acknowledgment is its last one to whomever.
 * NO_LISTENER, NO_PLACE. */
uint32_t hidzgula_listener_row(hidzgula_listener *listener, size_t place, hidzgula_row_out *row);

/* How many units have had messages: NAMEs, and addresses that no NAME had claimed, each from one gap to the next.
 * NO_LISTENER. */
uint32_t hidzgula_listener_units(hidzgula_listener *listener, size_t *count);

/* The unit at a place, from 0, in the order of the units' first messages.
 * NO_LISTENER, NO_PLACE. */
uint32_t hidzgula_listener_unit(hidzgula_listener *listener, size_t place, hidzgula_who *who);

/* How many messages of a kind a unit has had, whatever is kept of them, up to the greatest 64-bit number. The last of them, up to `keep`, are
 * kept.
 * NO_KIND, NO_LISTENER. */
uint32_t hidzgula_listener_entries(hidzgula_listener *listener, const hidzgula_who *who, uint8_t kind, uint64_t *count);

/* The message at a place of that list, from 0, the oldest of all that came first. A message keeps its place while others come.
 * NO_KIND, NO_LISTENER, NOT_KEPT where it came and is none of the newest `keep`, NO_PLACE where it never came. */
uint32_t hidzgula_listener_entry(
    hidzgula_listener *listener, const hidzgula_who *who, uint8_t kind, uint64_t place, hidzgula_sent_out *entry);

/* The trouble code at a place of the message at the place `entry`, both from 0, in the order of the message, of those that can be read.
 * NO_KIND, NO_LISTENER, NOT_KEPT where that message came and is none of the newest `keep`, NO_PLACE where it never came, or has no such
 * code. */
uint32_t hidzgula_listener_code(
    hidzgula_listener *listener, const hidzgula_who *who, uint8_t kind, uint64_t entry, size_t place, hidzgula_code_out *code);

/* ---- A simulated unit
 *
 * It hears each frame of the bus, and is asked again and again for the frame that goes now. It has no clock: `now` is the time in microseconds
 * of any clock that does not go back, as CLOCK_MONOTONIC.
 *
 *     for (;;) {
 *         while (hidzgula_unit_next(&unit, now(), &frame, &has) == HIDZGULA_DONE && has) write_frame(&frame);
 *         hidzgula_unit_when(&unit, now(), &at);
 *         if (read_frame_until(at, &frame)) hidzgula_unit_hear(&unit, frame.id, frame.bytes, frame.length, now());
 *     }
 *
 * Its own frames may come back to it: it owes nothing for them. A frame that `next` gave counts as written, and cannot be taken back. */

/* Opens a simulated unit of this NAME, which holds `address`, 0 to 253, and keeps to `settings`. It has no trouble code, its lamps are off, and its
 * claim is the first frame that goes.
 * BAD_SETTING, HAS_UNIT, OUT_OF_MEMORY. */
uint32_t hidzgula_unit_open(hidzgula_unit *unit, uint64_t name, uint8_t address, const hidzgula_unit_settings *settings);

/* Closes a unit and frees all its memory; does nothing where there is none. */
void hidzgula_unit_close(hidzgula_unit *unit);

/* The unit hears a frame that was read of the bus: its 29-bit identifier, and `length` bytes. It does what it owes for it: claims and defends its
 * address or loses it, answers a request, serves a session, obeys or not a commanded address, clears its codes or not.
 * ID_TOO_LARGE, TOO_LONG, NO_UNIT, QUEUE_FULL where as much waits as there is room for and the frame is a request, a request to send or a clear to
 * send, OUT_OF_MEMORY. Refused, the frame was not heard, and may be handed over again. */
uint32_t hidzgula_unit_hear(hidzgula_unit *unit, uint32_t id, const uint8_t *bytes, size_t length, uint64_t now);

/* The frame that goes now: `has` is 1 and `frame` is it, to be written at once; or `has` is 0, and `frame` is as it was. Claims go first, then,
 * once the unit has settled, single frames, those of a session, and messages to all, whose packets keep their gap. Where none is due the unit
 * first does of its own accord what is due: it gives up a session that was left alone, or begins a DM1.
 * NO_UNIT, OUT_OF_MEMORY. */
uint32_t hidzgula_unit_next(hidzgula_unit *unit, uint64_t now, hidzgula_frame *frame, uint8_t *has);

/* When to ask again: `at` is `now` or later, and before it nothing is due, unless a frame is heard, a fault changes or a message is begun. It is
 * UINT64_MAX where nothing waits for its time.
 * NO_UNIT. */
uint32_t hidzgula_unit_when(hidzgula_unit *unit, uint64_t now, uint64_t *at);

/* A fault is there: its code becomes active; one that is active stays as it is. SPN up to 524,287, FMI up to 31.
 * NO_UNIT, SPN_TOO_LARGE, FMI_TOO_LARGE, MEMORY_FULL, OUT_OF_MEMORY. */
uint32_t hidzgula_unit_set(hidzgula_unit *unit, uint32_t spn, uint8_t fmi);

/* A fault has gone: its active code becomes a previously active one.
 * NO_UNIT, SPN_TOO_LARGE, FMI_TOO_LARGE, NOT_ACTIVE, OUT_OF_MEMORY. */
uint32_t hidzgula_unit_heal(hidzgula_unit *unit, uint32_t spn, uint8_t fmi);

/* A fault was seen and is not confirmed yet: a new code becomes pending; one that the unit has stays as it is.
 * NO_UNIT, SPN_TOO_LARGE, FMI_TOO_LARGE, MEMORY_FULL, OUT_OF_MEMORY. */
uint32_t hidzgula_unit_pend(hidzgula_unit *unit, uint32_t spn, uint8_t fmi);

/* A pending fault was not seen again: its code goes away.
 * NO_UNIT, SPN_TOO_LARGE, FMI_TOO_LARGE, NOT_PENDING. */
uint32_t hidzgula_unit_unpend(hidzgula_unit *unit, uint32_t spn, uint8_t fmi);

/* All lamps are replaced: the first two bytes of a DM1, as in `hidzgula_entry_out`; 0x00 and 0xFF put all off.
 * NO_UNIT. */
uint32_t hidzgula_unit_lamps(hidzgula_unit *unit, uint8_t lamps, uint8_t flashes);

/* Begins a message of a kind to all now, of the fault memory as it is.
 * NO_KIND, NO_UNIT, QUEUE_FULL, NOT_HELD, SESSION_OPEN, OUT_OF_MEMORY. */
uint32_t hidzgula_unit_begin(hidzgula_unit *unit, uint8_t kind);

/* The unit's address: `has` is 1 and `address` is 0 to 253 where it holds one, else both are 0.
 * NO_UNIT. */
uint32_t hidzgula_unit_held(hidzgula_unit *unit, uint8_t *has, uint8_t *address);

/* What became of the frames that the unit put.
 * NO_UNIT. */
uint32_t hidzgula_unit_counts(hidzgula_unit *unit, hidzgula_unit_counts_out *counts);

/* ---- A live station
 *
 * It takes part in a bus as a simulated unit does: it hears each frame of the bus, and is asked again and again for the frame that goes now. It
 * claims its address, and behind that asks all for their claims; defends its address or loses it; answers requests, and grants the packets of
 * sessions. Beside these it writes what an order is, and no clear and no command without its order. One order is open at a time; what came of it is
 * asked by `hidzgula_live_verdict`, and stays there until the next order. `now` is the time in microseconds of any clock that does not go back.
 *
 *     hidzgula_live_ask(&live, name, HIDZGULA_PGN_DM2);
 *     for (;;) {
 *         while (hidzgula_live_next(&live, now(), &frame, &has) == HIDZGULA_DONE && has) write_frame(&frame);
 *         if (hidzgula_live_verdict(&live, &verdict) == HIDZGULA_DONE && verdict.what != HIDZGULA_OPEN) break;
 *         hidzgula_live_when(&live, now(), &at);
 *         if (read_frame_until(at, &frame)) hidzgula_live_hear(&live, frame.id, frame.bytes, frame.length, now(), &change);
 *     }
 *
 * Its own frames may come back to it: they change nothing, and what comes from its address and is none of them is somebody else's. A frame that
 * `next` gave counts as written, and cannot be taken back. */

/* Opens a live station of this NAME, which holds `address`, 0 to 253, and keeps to `settings`. It has heard nothing, and its claim is the first
 * frame that goes.
 * BAD_SETTING, HAS_STATION, OUT_OF_MEMORY. */
uint32_t hidzgula_live_open(hidzgula_live *live, uint64_t name, uint8_t address, const hidzgula_live_settings *settings);

/* Closes a live station and frees all its memory; an order that is open gets no verdict. Does nothing where there is none. */
void hidzgula_live_close(hidzgula_live *live);

/* Makes room for one more NAME, as `hidzgula_make_room`, while no order is open. A station that is begun anew is as one that was opened at its address
 * and heard the claims of the NAMEs that hold others: so it claims again, and asks all for their claims. What waits is let go; the newest
 * verdict and the groups that the program shares stay. Its own frames that come back behind that are a STRANGER's, but for claims.
 * BAD_SETTING for `most` 0, NO_STATION; and where it is to be begun anew ORDER_OPEN while an order is open (`hidzgula_live_end`), NOT_HELD while it
 * holds no address, OUT_OF_MEMORY. */
uint32_t hidzgula_live_make_room(hidzgula_live *live, size_t most, uint8_t *anew);

/* The station hears a frame that was read of the bus: its 29-bit identifier, and `length` bytes. It does what it owes for it, lists the message that
 * ends with it, and looks at it for the open order. `change` is what the frame changed; of a frame of its own, NOTHING or STRANGER.
 * ID_TOO_LARGE, TOO_LONG, NO_STATION, QUEUE_FULL where as much waits as there is room for and the frame is a request or one of a session,
 * OUT_OF_MEMORY. Refused, the frame was not heard, and may be handed over again. */
uint32_t hidzgula_live_hear(
    hidzgula_live *live, uint32_t id, const uint8_t *bytes, size_t length, uint64_t now, hidzgula_change *change);

/* The station is told that `count` frames of the bus were missed: it forgets which NAME owns which address, and all messages that are half read,
 * until units claim again; its claim goes again, and behind it a request for the claims of all, at most one each 1,250 ms. `change` says MISSED and
 * how many.
 * NO_STATION, QUEUE_FULL, OUT_OF_MEMORY. */
uint32_t hidzgula_live_missed(hidzgula_live *live, uint32_t count, uint64_t now, hidzgula_change *change);

/* Saves what the station knows, as `hidzgula_save` does. The order that is open, what came of the newest one, and groups that a program shares are not
 * saved.
 * NO_STATION, NOT_HELD, OUT_OF_MEMORY, NOT_SAVED, NO_ROOM, and then `count` is written, and nothing else. */
uint32_t hidzgula_live_save(hidzgula_live *live, hidzgula_frame *frames, size_t room, size_t *count);

/* Hands frames that were saved to a live station that was just opened, as `hidzgula_restore` does. Its claim and the request for the claims of all
 * wait, as when it was opened.
 * ID_TOO_LARGE, TOO_LONG, NO_STATION, QUEUE_FULL, OUT_OF_MEMORY. Refused, it has part of what was saved: it is to be closed. */
static inline uint32_t hidzgula_live_restore(hidzgula_live *live, const hidzgula_frame *frames, size_t count, uint64_t now)
{
    hidzgula_change change;
    for (size_t i = 0; i < count; i++) {
        if (frames[i].id >> 29 != 0) return HIDZGULA_ID_TOO_LARGE;
        if (frames[i].length > 8) return HIDZGULA_TOO_LONG;
        uint32_t status = hidzgula_live_hear(live, frames[i].id, frames[i].bytes, frames[i].length, now, &change);
        if (status != HIDZGULA_DONE) return status;
    }
    return hidzgula_live_missed(live, 1, now, &change);
}

/* One thing that goes now. `has` is 1 and `frame` is it where it is a frame, to be written at once; where the open order goes on or ends without
 * one, or nothing goes, `has` is 0, and `frame` is as it was: then `hidzgula_live_when` says whether more goes now. Claims go first, then, once the
 * station has settled, what it owes, and then what the order is.
 * NO_STATION. */
uint32_t hidzgula_live_next(hidzgula_live *live, uint64_t now, hidzgula_frame *frame, uint8_t *has);

/* When to ask again: `at` is `now` or later, and before it nothing goes, unless a frame is heard or an order is given. It is UINT64_MAX where
 * nothing waits for its time.
 * NO_STATION. */
uint32_t hidzgula_live_when(hidzgula_live *live, uint64_t now, uint64_t *at);

/* Asks the unit of a NAME for HIDZGULA_PGN_ADDRESS_CLAIMED, HIDZGULA_PGN_DM1, HIDZGULA_PGN_DM2 or HIDZGULA_PGN_DM6. Three times at most, 1,250 ms
 * for each answer to begin.
 * NO_GROUP, NO_STATION, ORDER_OPEN. */
uint32_t hidzgula_live_ask(hidzgula_live *live, uint64_t name, uint32_t pgn);

/* Asks all units for one of these groups. It ends 1,250 ms behind the last frame of an answer.
 * NO_GROUP, NO_STATION, ORDER_OPEN. */
uint32_t hidzgula_live_ask_all(hidzgula_live *live, uint32_t pgn);

/* Has the unit of a NAME clear by HIDZGULA_PGN_DM3 or HIDZGULA_PGN_DM11, and then asks it what is left. The clear is written once, and again only
 * where the unit said that it cannot answer now.
 * NO_GROUP, NO_STATION, ORDER_OPEN. */
uint32_t hidzgula_live_clear(hidzgula_live *live, uint64_t name, uint32_t pgn);

/* Commands the unit of a NAME to hold an address, 0 to 253.
 * NO_STATION, ORDER_OPEN also while a broadcast of the program's is under way, NOT_AN_ADDRESS. */
uint32_t hidzgula_live_command(hidzgula_live *live, uint64_t name, uint8_t address);

/* Ends the open order, if one is open: its verdict is CUT_OFF; or, where what a clear left is being asked, what the clear came to, with CUT_OFF
 * in `left`.
 * NO_STATION. */
uint32_t hidzgula_live_end(hidzgula_live *live, uint64_t now);

/* The order that is open, or what came of the newest one.
 * NO_STATION. */
uint32_t hidzgula_live_verdict(hidzgula_live *live, hidzgula_verdict *verdict);

/* ---- Groups that the program shares with a live station
 *
 * Of a group that is shared the program has the messages, at the station's own address: those in one frame and broadcasts, and what units send to
 * that address, whose packets are granted. The station neither refuses requests for it nor aborts its sessions. Each frame, from the
 * first one on, is handed to `hidzgula_live_shared_hear`, and then to the station where it is not withheld; both are asked for frames to write:
 *
 *     hidzgula_live_share(&live, 65260);                                  the identification of vehicles
 *     hidzgula_live_shared_ask(&live, address, 65260);
 *     ..
 *     hidzgula_live_shared_hear(&live, frame.id, frame.bytes, frame.length, &withheld, &whole);
 *     if (!withheld) hidzgula_live_hear(&live, frame.id, frame.bytes, frame.length, now(), &change);
 *     if (whole) hidzgula_live_shared_message(&live, &message);
 *     ..
 *     hidzgula_live_shared_send(&live, 255, 61184, bytes, length);        a message of the program's own
 *     ..
 *     while (hidzgula_live_shared_next(&live, now(), &frame, &has) == HIDZGULA_DONE && has) write_frame(&frame);
 *
 * Where `hidzgula_live_hear` refuses a frame, that call alone is made again. A message is dropped half joined where its address is claimed by another
 * NAME or frames were missed, and one to the station where that moves. `hidzgula_live_row_of` tells the address of a NAME. */

/* Shares a group from now on. Groups of the protocol and of diagnostics are the station's: 59392, 59904, 60160, 60416, 60928, 65226 to 65228, 65231,
 * 65235, 65240.
 * PGN_TOO_LARGE, NO_STATION, NO_GROUP for one of those, OUT_OF_MEMORY. */
uint32_t hidzgula_live_share(hidzgula_live *live, uint32_t pgn);

/* Asks the unit at an address, or all (255), for a group that is shared. The request waits for `hidzgula_live_shared_next`.
 * PGN_TOO_LARGE, NO_STATION, NO_GROUP where it is not shared, NOT_HELD, QUEUE_FULL where 64 frames wait. */
uint32_t hidzgula_live_shared_ask(hidzgula_live *live, uint8_t to, uint32_t pgn);

/* What came of the newest message that was given to be sent. */
enum {
    HIDZGULA_SEND_NONE = 0,            /* none was */
    HIDZGULA_SEND_OPEN = 1,            /* it is under way */
    HIDZGULA_SEND_WRITTEN = 2,         /* its one frame, or all of a broadcast, was written */
    HIDZGULA_SEND_ACKNOWLEDGED = 3,    /* its receiver acknowledged all of it */
    HIDZGULA_SEND_ABORTED = 4,         /* its receiver aborted it, for `reason` */
    HIDZGULA_SEND_SILENT = 5,          /* its receiver said nothing in time: it was aborted, for reason 3 */
    HIDZGULA_SEND_ASKED_TOO_OFTEN = 6, /* its receiver asked for the same packet a third time: it was aborted, for reason 5 */
    HIDZGULA_SEND_CUT_OFF = 7          /* another NAME claimed the address that it goes to, or the station left its own */
};

/* Gives a message of a group that is shared to be sent, of 0 to 1,785 bytes, to an address or to all (255); `hidzgula_live_shared_next` gives its
 * frames. Up to eight bytes go in one frame, of priority 6; more to all by a broadcast, whose packets keep the gap of the settings, or to an
 * address by a session: its receiver is waited for 1,250 ms, or 1,050 ms while it holds the session open, and a packet goes again twice
 * at most. One goes at a time.
 * PGN_TOO_LARGE, NO_STATION, NO_GROUP where it is not shared, or is 2^18 or more, or PDU1 with a low byte that is not 0, NOT_HELD, TOO_LONG,
 * NOT_AN_ADDRESS for 254, for the station's own and for an address where a PDU2 group has up to eight bytes, SESSION_OPEN while another is under
 * way, and, for a broadcast, while a command is, OUT_OF_MEMORY. */
uint32_t hidzgula_live_shared_send(hidzgula_live *live, uint8_t to, uint32_t pgn, const uint8_t *bytes, size_t length);

/* What came of the newest one; `reason` is 0 but where its receiver aborted it.
 * NO_STATION. */
uint32_t hidzgula_live_shared_sent(hidzgula_live *live, uint8_t *what, uint8_t *reason);

/* Hears a frame of the bus, before the station does. `withheld` is 1 where it is the program's alone: the station is then not to hear it. `whole` is 1
 * where a message is whole with it.
 * ID_TOO_LARGE, TOO_LONG, NO_STATION; and where it is withheld QUEUE_FULL, OUT_OF_MEMORY. Refused, the frame was not heard, and may be handed over again.
 * Where memory is refused for any other frame, what is half joined from its source is dropped. */
uint32_t hidzgula_live_shared_hear(
    hidzgula_live *live, uint32_t id, const uint8_t *bytes, size_t length, uint8_t *withheld, uint8_t *whole);

/* The frame that goes now for groups that are shared, as `hidzgula_live_next` gives the station's; from the station's address, once that has settled.
 * NO_STATION. */
uint32_t hidzgula_live_shared_next(hidzgula_live *live, uint64_t now, hidzgula_frame *frame, uint8_t *has);

/* When to ask again for those, as `hidzgula_live_when` says it of the station's.
 * NO_STATION. */
uint32_t hidzgula_live_shared_when(hidzgula_live *live, uint64_t now, uint64_t *at);

/* The newest message that is whole; it stays until the next one is.
 * NO_STATION, NO_PLACE where none was. */
uint32_t hidzgula_live_shared_message(hidzgula_live *live, hidzgula_message *message);

/* What the station knows of units, by what it was told: the calls do what those of a station without `live_` do. */
uint32_t hidzgula_live_held(hidzgula_live *live, uint8_t *has, uint8_t *address);
uint32_t hidzgula_live_counts(hidzgula_live *live, uint64_t *missed, uint64_t *unread);
uint32_t hidzgula_live_rows(hidzgula_live *live, size_t *count);
uint32_t hidzgula_live_row(hidzgula_live *live, size_t place, hidzgula_row_out *row);

/* The row of a NAME.
 * NO_STATION, NO_PLACE where no claim of it was heard. */
uint32_t hidzgula_live_row_of(hidzgula_live *live, uint64_t name, hidzgula_row_out *row);

uint32_t hidzgula_live_entries(hidzgula_live *live, uint64_t name, uint8_t kind, uint64_t *count);
uint32_t hidzgula_live_entry(hidzgula_live *live, uint64_t name, uint8_t kind, uint64_t place, hidzgula_entry_out *entry);
uint32_t hidzgula_live_code(hidzgula_live *live, uint64_t name, uint8_t kind, uint64_t entry, size_t place, hidzgula_code_out *code);

#ifdef __cplusplus
}
#endif
#endif
