/* The frames of the candump log on standard input, frames with 29-bit identifiers alone. */
#include "hidzgula_station.h"

#include <inttypes.h>
#include <stdio.h>
#include <string.h>

enum { MOST = 1 << 13 };

static hidzgula_frame frames[MOST];
static size_t frame_count;

static void read_frames(void)
{
    char line[512], digits[17];
    while (fgets(line, sizeof line, stdin) && frame_count < MOST) {
        hidzgula_frame *frame = &frames[frame_count];
        memset(frame, 0, sizeof *frame);
        digits[0] = 0;
        if (sscanf(line, "(%*[^)]) %*s %8" SCNx32 "#%16[0-9A-Fa-f]", &frame->id, digits) < 1 || frame->id >= 1u << 29) continue;
        for (; digits[2 * frame->length]; frame->length++) sscanf(digits + 2 * frame->length, "%2" SCNx8, &frame->bytes[frame->length]);
        frame_count++;
    }
}
