// The calls of c8.hpp that example.cpp does not make: calls JOURNAL OTHER. Its status is 0, or it prints the line that fails.
#include "c8.hpp"

#include <cstdio>
#include <type_traits>
#include <vector>

#define MUST(...) \
    if (!(__VA_ARGS__)) return std::printf("line %d: %s\n", __LINE__, #__VA_ARGS__), 1

namespace {

static_assert(std::is_nothrow_move_constructible_v<c8::Session> && !std::is_copy_constructible_v<c8::Session>);

const std::string text = c8::rules(2, 100, 1, 8, "calls 1");
enum Kind : std::uint8_t { HELLO, WELCOME, DATA };

// The number of the refusal that a call throws; 0 if it throws none.
template <typename Call> c8_answer refused(Call call) {
    try {
        call();
        return 0;
    } catch (const c8::Refusal &refusal) {
        return std::string_view(refusal.what()) == c8::explain(refusal.number) ? refusal.number : 1;
    }
}

void greet(c8::Session &one, c8::Session &two) {
    for (std::uint8_t kind : {HELLO, WELCOME}) {
        two.deliver(one.say(2, kind).bytes());
        one.deliver(two.say(1, kind).bytes());
    }
}

int frame() {
    MUST(c8::version() == C8_VERSION);
    c8::Session one(text, 1, 7), two(text, 2, 7);
    greet(one, two);
    MUST(one.tick(5) == 0 && two.tick(6) == 0);
    MUST(two.deliver(one.say(2, DATA).bytes()) == 1);
    MUST(two.tick(7) == 0);
    const c8::Step step = two.step();
    MUST(step.from == 0 && step.rows().size() == 2 && !step.is_full());
    MUST(step.rows()[1] == c8::Row{5, 6, 0, 0});
    MUST(two.ticked() == 2 && two.confirmed() == 2 && two.epoch() == 1 && !two.is_over() && !two.is_lost());
    const c8_player_state state = two.player(1);
    MUST(state.held == 2 && state.acknowledged == 1 && state.linked && !state.dropped);
    two.turn();
    int packets = 0;
    for (std::optional<c8::Packet> packet; (packet = two.next()); packets++) MUST(packet->to == 1 && packet->length >= 24);
    MUST(packets > 0 && !two.next());
    two.check(3);
    MUST(two.tick(8) == 0 && two.step().count == 1 && two.step().count == 1);
    MUST(two.screen().size() == 256 && two.state().size() == 4419 && two.mark().size() == 8 && two.tone() < 9);
    return 0;
}

int handles() {
    c8::Session one(text, 1, 7), other(text, 1, 7);
    one.tick(1);
    c8::Session moved = std::move(one);
    MUST(moved.ticked() == 1 && one.is_over() && refused([&] { one.turn(); }) == C8_CLOSED);
    other = std::move(moved);
    MUST(other.ticked() == 1 && moved.ticked() == 0);
    other.close();
    other.close();
    MUST(other.is_over());
    return 0;
}

int refusals() {
    c8::Session one(text, 1, 7);
    MUST(refused([] { c8::Session("players 2\n", 1, 7); }) / 100 == 2);
    MUST(refused([&] { one.player(9); }) == 102 && refused([&] { one.watched(4); }) == 102 && refused([&] { one.watched(5); }) == 0);
    MUST(refused([&] { one.leave(9); }) == 102 && refused([&] { one.decide(9); }) == 102);
    MUST(refused([&] { one.checkpoint(); }) / 100 == 12);
    MUST(c8::rules(5, 100, 1, 8, "").empty() && c8::explain(1).empty() && c8::explain(401).starts_with("Threshold"));
    return 0;
}

int secrets() {
    const std::array<std::uint8_t, 32> secret{1}, watchers{2};
    c8::Session one(text, 1, 7), two(text, 2, 7);
    one.secret(secret, watchers);
    two.secret(secret);
    MUST(refused([&] { one.secret(secret); }) == C8_SEALED_ALREADY);
    const c8::Packet packet = one.say(2, HELLO);
    MUST(two.deliver(packet.bytes()) == 0 && two.sender() && two.sender()->seat == 1 && two.sender()->newest);
    MUST(two.deliver(packet.bytes()) == C8_SEEN_BEFORE && !two.sender());
    MUST(one.deliver(packet.bytes()) == C8_NOT_SEALED);
    return 0;
}

int journals(const char *path) {
    {
        c8::Session one(text, 1, 7, 0, c8::Journal(path));
        MUST(one.tick(3) == 0);
        MUST(refused([&] { c8::Session(text, 1, 7, 0, c8::Journal(path)); }) == C8_LOCKED);
    }
    c8::Session again(text, 1, 7, 0, c8::Journal(path));
    MUST(again.ticked() == 1 && again.epoch() == 2);
    c8::Session replay(text, c8::Recording(path));
    const c8::Step step = replay.step();
    MUST(replay.ticked() == 1 && step.count == 1 && replay.tick(3) == C8_REPLAY && refused([&] { replay.turn(); }) == C8_REPLAY);
    MUST(again.tick(4) == 0 && replay.ticked() == 1);
    try {
        c8::Journal none("no/such/journal");
        return std::puts("a journal without a folder"), 1;
    } catch (const std::runtime_error &) {
    }
    try {
        c8::Recording none("no/such/journal");
        return std::puts("a replay without a file"), 1;
    } catch (const std::runtime_error &) {
        return 0;
    }
}

// Player 2 is opened again over its journal: player 1 is told so, once.
int restarts(const char *path) {
    c8::Session one(text, 1, 7);
    for (int opening = 0; opening < 2; opening++) {
        c8::Session two(text, 2, 7, 0, c8::Journal(path));
        int restarted = 0;
        for (int turn = 0; turn < 5; turn++)
            for (c8::Session *session : {&one, &two}) {
                session->tick(1);
                session->turn();
                while (auto packet = session->next()) (packet->to == 1 ? one : two).deliver(packet->bytes());
            }
        while (auto event = one.event()) restarted += event->kind == C8_EVENT_RESTARTED && event->player == 2;
        MUST(restarted == opening);
    }
    return 0;
}

// A watcher is shown the rows of a match with a secret.
int watchers() {
    const std::array<std::uint8_t, 32> secret{1}, shown{2};
    c8::Session one(text, 1, 7), two(text, 2, 7), watcher = c8::Session::watch(text, 5, 7, 1000);
    std::vector<c8::Row> rows;
    one.secret(secret, shown);
    two.secret(secret);
    watcher.secret(shown);
    one.watched(5);
    for (int turn = 0; turn < 300; turn++) {
        one.tick(3);
        two.tick(5);
        for (c8::Session *session : {&one, &two, &watcher}) {
            session->turn();
            while (auto packet = session->next()) (packet->to == 1 ? one : packet->to == 2 ? two : watcher).deliver(packet->bytes());
        }
        watcher.run([&](std::uint32_t frame, const c8::Row &row) { if (frame == rows.size()) rows.push_back(row); });
        MUST(rows.size() == watcher.confirmed() && rows.size() == watcher.ticked());
    }
    MUST(watcher.is_over() && rows.size() == 100 && rows[50] == c8::Row{3, 5, 0, 0});
    MUST(watcher.epoch() == 0 && watcher.wait() == 0 && !watcher.event() && !watcher.is_lost());
    MUST(watcher.tick(1) == C8_WATCHER && refused([&] { watcher.player(1); }) == C8_WATCHER && refused([&] { watcher.status(1); }) == C8_WATCHER);
    MUST(watcher.state() == one.state() && watcher.sender() && watcher.sender()->seat == 1);
    MUST(refused([] { c8::Session::watch(text, 4, 7, 0); }) == C8_NOBODY);
    return 0;
}

} // namespace

int main(int count, char **words) {
    return count != 3 || frame() || handles() || refusals() || secrets() || journals(words[1]) || restarts(words[2]) || watchers();
}
