"""A match of two over UDP, without a picture: python3 duel.py ROLE LOCAL_PORT HOST PORT [FRAMES [JOURNAL]]. ROLE is 1 or 2.

Each player presses keys by a rule, and loses every fifth packet that it sends. In the end both print the same line. With a journal, a player
that was killed goes on where it was."""
import socket
import sys
import time

from c8play import Session, rules

ROOM, WAIT, LOST = 1, 0.002, 5
MASK = 2**64 - 1


class Machine:
    """The states before each frame, and a step on a row of keys."""

    def __init__(self) -> None:
        self.states = [0]

    def run(self, session: Session) -> None:
        """Goes back to the first frame that changed, and runs the machine from there."""
        for frame, row in session.rows():
            del self.states[frame + 1:]
            state = self.states[frame]
            for keys in row:
                state = (state * 1000003 + keys) & MASK
            self.states.append(state)


def receive(udp: socket.socket, session: Session) -> None:
    """Delivers the packets that came."""
    while True:
        try:
            session.deliver(udp.recv(2048))
        except (BlockingIOError, ConnectionError):
            return


def play(session: Session, udp: socket.socket, me: int) -> int:
    """Plays to the end of the match; the last state."""
    machine, sent = Machine(), 0
    machine.run(session)
    while not session.is_over():
        receive(udp, session)
        was_taken = session.tick(session.ticked() * 7919 * me >> 3 & 0xFFFF)
        session.turn()
        for _, packet in session.packets():
            sent += 1
            if sent % LOST:
                try:
                    udp.send(packet)
                except ConnectionError:
                    pass  # the other player is not there yet
        machine.run(session)
        if not was_taken:
            time.sleep(WAIT)
    return machine.states[session.confirmed()]


def main(role: str, local: str, host: str, port: str, frames: str = "600", journal: str = "") -> None:
    with socket.socket(socket.AF_INET, socket.SOCK_DGRAM) as udp:
        udp.bind(("", int(local)))
        udp.connect((host, int(port)))
        udp.setblocking(False)
        text = rules(players=2, frames=int(frames), delay=2, window=8, id=b"duel 1")
        with Session(text, player=int(role), room=ROOM, journal=journal or None) as session:
            print(f"frames {frames} state {play(session, udp, int(role)):016x}")


if __name__ == "__main__":
    if len(sys.argv) < 5:
        sys.exit(__doc__)
    main(*sys.argv[1:])
