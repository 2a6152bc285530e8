// A station in a C++ class, as a gateway would hold it: it is closed at the end of its life and cannot be copied. It keeps the newest 16
// messages of each list. The program hands it the frames of a few seconds of a bus, and writes what it sends, as candump writes it, each
// message that a frame listed, and what it knows at the end.
#include "hidzgula_station.h"

#include <cinttypes>
#include <cstdio>
#include <stdexcept>
#include <string>
#include <vector>

class Station {
public:
    Station(std::uint64_t name, std::uint8_t address) { done(hidzgula_open(&held, name, address, 255, 16)); }
    ~Station() { hidzgula_close(&held); }
    Station(const Station &) = delete;
    Station &operator=(const Station &) = delete;

    std::vector<hidzgula_frame> take(std::uint32_t id, const std::vector<std::uint8_t> &bytes, hidzgula_change &change)
    {
        static const std::uint8_t none = 0;
        hidzgula_reply reply;
        done(hidzgula_take_frame(&held, id, bytes.empty() ? &none : bytes.data(), bytes.size(), &reply, &change));
        return frames(reply);
    }

    std::vector<hidzgula_frame> ask_all(std::uint32_t group)
    {
        hidzgula_reply reply;
        done(hidzgula_ask_all(&held, group, &reply));
        return frames(reply);
    }

    hidzgula_frame claim()
    {
        hidzgula_frame frame;
        done(hidzgula_claim(&held, &frame));
        return frame;
    }

    std::uint64_t entries(std::uint64_t name, std::uint8_t kind)
    {
        std::uint64_t count = 0;
        done(hidzgula_entries(&held, name, kind, &count));
        return count;
    }

private:
    hidzgula_station held = HIDZGULA_EMPTY;

    static std::vector<hidzgula_frame> frames(const hidzgula_reply &reply) { return { reply.frames, reply.frames + reply.count }; }
    static void done(std::uint32_t answer)
    {
        if (answer != HIDZGULA_DONE) throw std::runtime_error("the station refused: " + std::to_string(answer));
    }
};

static void sent(const hidzgula_frame &frame)
{
    std::printf("sends %08" PRIX32 "#", frame.id);
    for (int i = 0; i < frame.length; i++) std::printf("%02X", frame.bytes[i]);
    std::printf("\n");
}

int main()
{
    Station station(1, 248);
    sent(station.claim());
    for (const auto &frame : station.ask_all(HIDZGULA_PGN_ADDRESS_CLAIMED)) sent(frame);
    // the engine claims address 0, announces a DM1 of 14 bytes to the station alone, and sends its two packets
    const std::vector<std::vector<std::uint8_t>> session = {
        { 0x10, 14, 0, 2, 255, 0xCA, 0xFE, 0 }, { 1, 0x04, 0xFF, 0xB8, 0x04, 3, 1, 0x6E }, { 2, 0, 0, 1, 0xAF, 0, 0, 1 },
    };
    hidzgula_change change;
    for (const auto &frame : station.take(0x18EEFF00, { 0xA0, 0, 0, 0, 0, 0, 0, 0 }, change)) sent(frame);
    for (const auto &bytes : session) {
        for (const auto &frame : station.take(bytes[0] == 0x10 ? 0x1CECF800 : 0x1CEBF800, bytes, change)) sent(frame);
        if (change.what == HIDZGULA_LISTED) std::printf("lists a DM%u of %016" PRIX64 " at %u\n", change.kind, change.name, change.address);
    }
    std::printf("messages of 00000000000000A0: %" PRIu64 "\n", station.entries(0xA0, HIDZGULA_DM1));
    return 0;
}
