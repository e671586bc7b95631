#!/bin/sh
# Plays games/duel.game twice with two processes over the loopback, with journals in files, and compares
# what they print. In the second game player 2 is killed in the middle and restarted with its journal.
#
# games/duel.sh [PORT [PORT]]: two free ports (default 4001 and 4002). PROGRAM in the environment runs in
# place of ./c8play. Exits with 0 if the reports of both players are equal in both games, otherwise with 1.
top=$(cd "$(dirname "$0")/.." && pwd) || exit 1
one=127.0.0.1:${1:-4001}
two=127.0.0.1:${2:-4002}
program=${PROGRAM:-$top/c8play}
dir=$(mktemp -d) || exit 1
running=
trap 'for pid in $running; do kill "$pid" 2>/dev/null; done; rm -rf "$dir"' EXIT
trap 'exit 1' INT TERM

fail() {
    echo "duel: $1" >&2
    cat "$dir"/*.said >&2
    exit 1
}

# start NAME PLAYER LOCAL REMOTE: starts a player of the game NAME in the background, as process $started
start() {
    "$program" peer "$top/games/duel.game" "$2" "$dir/$1.$2.journal" "$3" "$4" --turns 60000 \
        <"$top/games/duel.$2.keys" >"$dir/$1.$2.report" 2>"$dir/$1.$2.said" &
    started=$!
    running="$running $started"
}

# both NAME: waits for both players of a game; their reports must be equal, and have all frames
both() {
    wait "$first" || fail "player 1 of the game '$1' ended with $?"
    wait "$second" || fail "player 2 of the game '$1' ended with $?"
    running=
    cmp "$dir/$1.1.report" "$dir/$1.2.report" || fail "the reports of the game '$1' differ"
    [ "$(head -n 1 "$dir/$1.1.report")" = 'frames 200' ] || fail "the game '$1' is not at its end"
}

# bytes FILE: its length, 0 if it does not exist
bytes() {
    if [ -f "$1" ]; then wc -c <"$1"; else echo 0; fi
}

# builds the program, if needed
"$program" --version >/dev/null || exit 1

start whole 1 "$one" "$two"
first=$started
start whole 2 "$two" "$one"
second=$started
both whole

# what one machine does with the same key sets: by the game's delay of 2 they count two frames later
{
    printf '0000 0000\n0000 0000\n'
    paste -d ' ' "$top/games/duel.1.keys" "$top/games/duel.2.keys"
} | head -n 200 >"$dir/rows"
"$program" run "$top/games/duel.game" "$dir/rows" >"$dir/alone" || fail 'the game cannot be played alone'
cmp "$dir/whole.1.report" "$dir/alone" || fail 'the peers differ from the game played alone'

start killed 1 "$one" "$two"
first=$started
start killed 2 "$two" "$one"
second=$started
# a record has 144 bytes, and player 2 writes one for each of its frames and one for what comes from player 1
while [ "$(bytes "$dir/killed.2.journal")" -lt 20000 ]; do
    kill -0 "$second" 2>/dev/null || fail 'player 2 ended before it could be killed'
    sleep 0.01
done
kill -KILL "$second"
wait "$second" 2>/dev/null
left=$(bytes "$dir/killed.2.journal")
sleep 1
start killed 2 "$two" "$one"
second=$started
both killed

cat "$dir/whole.1.report"
echo "duel: both games ended alike; the journal of player 2 had $left bytes when it was killed"
