#!/usr/bin/env bash
# replay_speed.sh [RECORDS [ROUNDS]]: times the program replay against replay_model.c on a recorded night of that many records
# or some more (1000000), in turns. Times are the processor's, the user's and the system's, of one record; ratio and times are
# medians of the rounds (11). It is a measurement: the exit status is 1 only if one of them prints other answers than the
# library gave in the night.
set -u -o pipefail
cd "$(dirname "$0")/.."
records=${1:-1000000}
rounds=${2:-11}
work=$(mktemp -d target/replay.XXXXXX)
trap 'rm -rf "$work"' EXIT

# Some calls of a night have no record.
target/bench/score --opaque --calls $((records * 5 / 4)) --record "$work/night" --answers "$work/answers" > "$work/score" ||
    { tail -n 1 "$work/score"; exit 1; }
for program in target/bin/replay target/bench/replay_model; do
    "$program" < "$work/night" | cmp - "$work/answers" || { echo "failed replay-speed: $program gives other answers"; exit 1; }
done

# Seconds of the user's and the system's time.
seconds() {
    local TIMEFORMAT='%U %S'
    { time "$1" < "$work/night" > /dev/null; } 2>&1 | awk '{ print $1 + $2 }'
}

# A line for each round: the seconds of both.
for ((i = 0; i < rounds; i++)); do
    if ((i % 2)); then
        model=$(seconds target/bench/replay_model)
        replay=$(seconds target/bin/replay)
    else
        replay=$(seconds target/bin/replay)
        model=$(seconds target/bench/replay_model)
    fi
    echo "$replay $model"
done > "$work/rounds"

# The median of an expression over the rounds.
median() {
    awk "{ print $1 }" "$work/rounds" | sort -g |
        awk '{ v[NR] = $1 } END { print (v[int((NR + 1) / 2)] + v[int(NR / 2) + 1]) / 2 }'
}

made=$(wc -l < "$work/answers")
echo "replay-speed: $rounds rounds of $made records, $(wc -c < "$work/night") bytes"
echo "ratio   replay ns  model ns  case"
printf '%5.2f  %10.1f  %8.1f  %s\n' "$(median '$1 / $2')" "$(median "1e9 * \$1 / $made")" "$(median "1e9 * \$2 / $made")" \
    "replay, a record of a night"
