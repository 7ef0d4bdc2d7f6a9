#!/usr/bin/env bash
# figures.sh [LOG]: prints docs/FIGURES.md: how large each crate is, its must-fail edits, the speed, the instructions and the
# stack. LOG is what a green gate printed; without it the gate's time is left out. rt ci tells no time of a single check.
set -u -o pipefail
cd "$(dirname "$0")/.."
log=${1:-/dev/null}
gate="The gate's time was not taken here"
if [ "$log" != /dev/null ]; then
    [[ $(tail -n 1 "$log") =~ \ 0\ failed$ ]] || { echo "figures.sh: $log is not what a green gate printed" >&2; exit 1; }
    gate="$(sed -n 's/^gate: //p' "$log"): $(tail -n 1 "$log"), on $(nproc) processors"
fi

# The lines of the files of a kind below a folder.
lines() {
    find "$1" -name "*.$2" -exec cat {} + 2> /dev/null | wc -l
}

crates() {
    sed -nE 's/^([a-z0-9_]+)( staticlib)?:.*/\1/p' crates.txt
}

# A row of each crate, and of their sum.
rows() {
    for crate in $(crates); do
        edits=$(find "crates/$crate/must-fail" -name '*.edit' 2> /dev/null | wc -l)
        echo "$crate $(lines "crates/$crate/specs" antt) $(lines "crates/$crate/src" rt) $(lines "crates/$crate/proofs" antt) $edits"
    done | awk '
        { for (i = 2; i <= 5; i++) sum[i] += $i; print }
        END { print "all", sum[2], sum[3], sum[4], sum[5] }'
}

block() {
    printf '\n```\n$ %s\n' "$1"
    bash -c "$1" || exit 1
    printf '```\n'
}

cat << END
# Figures

\`make figures\` writes this page; nothing in it is written by hand. What is promised stands in docs/PROMISES.md. The code was built by $(rt version).

## The gate

$gate. What an earlier run on the same machine passed is not proved again. \`rt ci\` tells no time of a crate or an edit: the older kit's figures stand (docs/LANDINGS.md). Lines are counted with comments.

| Crate | specs | src | proofs | Must-fail edits |
|---|---|---|---|---|
$(rows | sed -E 's/ +/ | /g; s/^/| /; s/$/ |/')

## Speed

Ratio of the library's time to that of bench/model.c (built with -O2), in one process, in turns; the median of 201 rounds. The aim is 0.8 or less in each case.
$(block "make -s speed")

The program \`replay\` and bench/replay_model.c on a recorded night, in turns; processor time.
$(block "make -s replay-speed")

## Instructions

Of one call, from its entry to its return, counted by valgrind's callgrind on the same cases: the store is full, and the vCPU is in the last slot. Behind a \`+\` are those of the C library. The gate fails where the library's own count is over this one by more than 3 %.
$(block "make -s counts")

## Stack
The deepest chain of calls from each exported function, return addresses included, from its machine code; the limit is 512 bytes, and that of adk_tally 640.
$(block 'bench/stack.sh target/staticlib/libadderknot.a 512 memset=$(target/bench/shallow --memset) "adk_tally<=640"')
END
