// The match of example.c: two players in one process, over a queue that loses every third packet. Prints what example.c prints.
#include "c8.hpp"

#include <cinttypes>
#include <cstdio>
#include <vector>

namespace {

constexpr std::uint32_t frames = 600;

std::uint64_t step(std::uint64_t state, const c8::Row &row) {
    for (std::uint16_t keys : row) state = state * 1000003 + keys;
    return state;
}

struct Player {
    explicit Player(std::uint8_t me) : me(me), session(c8::rules(2, frames, 1, 8, "example 1"), me, 7), states(frames + 1) {}

    // Goes back to the first frame that changed, and runs the machine from there.
    void run() {
        const std::uint32_t before = done;
        bool is_first = true;
        session.run([&](std::uint32_t frame, const c8::Row &row) {
            if (is_first && frame < before) rollbacks++;
            is_first = false;
            states[frame + 1] = step(states[frame], row);
            done = frame + 1;
        });
    }

    std::uint8_t me;
    c8::Session session;
    std::vector<std::uint64_t> states; // before each frame
    std::uint32_t done = 0, rollbacks = 0;
};

} // namespace

int main() {
    std::array players{Player(1), Player(2)};
    std::vector<c8::Packet> queue;
    for (int sent = 0; !players[0].session.is_over() || !players[1].session.is_over();) {
        for (const c8::Packet &packet : std::exchange(queue, {})) players[packet.to - 1].session.deliver(packet.bytes());
        for (Player &player : players) {
            player.session.tick(static_cast<std::uint16_t>(player.session.ticked() * 7919 * player.me >> 3));
            player.session.turn();
            while (const auto packet = player.session.next())
                if (++sent % 3) queue.push_back(*packet);
            player.run();
        }
    }
    for (Player &player : players)
        std::printf("player %d ticked %" PRIu32 " confirmed %" PRIu32 " state %016" PRIx64 " rolled back %" PRIu32 " times\n", player.me,
                    player.session.ticked(), player.session.confirmed(), player.states[frames], player.rollbacks);
    const bool is_same = players[0].states[frames] == players[1].states[frames];
    std::puts(is_same ? "the same" : "different");
    return !is_same;
}
