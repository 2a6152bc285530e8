/* NAMEs that would collide in a hash table of the toolchain's, whose hash has a fixed seed: that of eight bytes is the upper half of their
 * product with a constant, xor the lower half; a table with this many groups begins to look at the group of the hash's lowest bits, and
 * looks on where a bit is set that bits 24 to 28 choose. All the NAMEs that are written agree in both. They are found by trying.
 *
 *     colliding COUNT GROUPS WORDS     so many NAMEs, a line of 16 digits each, for a table of at most so many groups, a power of two, whose
 *                                      keys have so many words of 0 before the NAME: 0, or 1 where the key is an enum of which it is the first */
#include <inttypes.h>
#include <stdio.h>
#include <stdlib.h>

static const uint64_t START = 0x243F6A8885A308D3, FACTOR = 0x9E3779B97F4A7C15 ^ 16;

static uint64_t with_word(uint64_t state, uint64_t word)
{
    const __uint128_t product = (__uint128_t)(word ^ state) * FACTOR;
    return (uint64_t)product ^ (uint64_t)(product >> 64);
}

static uint32_t table_hash(uint64_t state, uint64_t name)
{
    const uint64_t hash = with_word(state, name);
    return (uint32_t)(hash ^ hash >> 32);
}

int main(int argc, char **argv)
{
    if (argc != 4) return 2;
    uint64_t state = START;
    for (unsigned long words = strtoul(argv[3], NULL, 10); words; words--) state = with_word(state, 0);
    const uint32_t compared = 0x1F000000 | (uint32_t)(strtoul(argv[2], NULL, 10) - 1), wanted = table_hash(state, 0) & compared;
    unsigned long left = strtoul(argv[1], NULL, 10);
    for (uint64_t name = 1; left; name++) {
        if ((table_hash(state, name) & compared) != wanted) continue;
        printf("%016" PRIX64 "\n", name);
        left--;
    }
    return 0;
}
