"""The match of example.c: two players in one process, over a queue that loses every third datagram. Prints what example.c prints."""
from c8play import Session, rules

FRAMES, MASK = 600, 2**64 - 1


def step(state: int, row: tuple[int, ...]) -> int:
    """The machine of this game."""
    for keys in row:
        state = (state * 1000003 + keys) & MASK
    return state


class Player:
    def __init__(self, me: int) -> None:
        self.me = me
        self.session = Session(rules(2, FRAMES, 1, 8, b"example 1"), player=me, room=7)
        self.states, self.rollbacks = [0], 0

    def run(self) -> None:
        """Goes back to the first frame that changed, and runs the machine from there."""
        first, rows = self.session.step()
        if rows:
            self.rollbacks += first < len(self.states) - 1
            del self.states[first + 1:]
            for row in rows:
                self.states.append(step(self.states[-1], row))


def main() -> None:
    players, sent = [Player(1), Player(2)], 0
    queue: list[tuple[int, bytes]] = []
    while not all(it.session.is_over() for it in players):
        for to, packet in queue:
            players[to - 1].session.deliver(packet)
        queue = []
        for player in players:
            session = player.session
            session.tick((session.ticked() * 7919 * player.me >> 3) & 0xFFFF)
            session.turn()
            for due in session.packets():
                sent += 1
                if sent % 3:
                    queue.append(due)
            player.run()
    for it in players:
        print(f"player {it.me} ticked {it.session.ticked()} confirmed {it.session.confirmed()} state {it.states[FRAMES]:016x} "
              f"rolled back {it.rollbacks} times")
    print("the same" if players[0].states == players[1].states else "different")


if __name__ == "__main__":
    main()
