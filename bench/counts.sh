#!/usr/bin/env bash
# counts.sh [CASE]: the instructions of one call in the library and in the model, for each case of cases.c, counted by
# valgrind's callgrind. With the number of a case, from 1: those of each function in it.
#
# Counted is what runs from a call's entry to its return, not what the C compiler makes around it. Each case is run with
# one call and with two, and the difference is taken, so that the set-up does not count. 'A+B' is A instructions of the
# side's own code and B of the C library's, which depends on the machine.
set -u -o pipefail
cd "$(dirname "$0")/.."
program=target/bench/count
work=$(mktemp -d)
trap 'rm -rf "$work"' EXIT
declare -A prefix=([library]=adk_ [model]=mdl_)
mapfile -t names < <("$program")

# The entries of a side that are counted in a case. The model's cache makes calls, and those count as part of it; so with a
# call by its number and the tally.
entries() {
    case ${names[$2 - 1]} in
    *cache,*) echo "${prefix[$1]}cache_*" ;;
    *"by its number"*) echo "${prefix[$1]}call" ;;
    *"through the tally"*) echo "${prefix[$1]}tally" ;;
    *) echo "${prefix[$1]}*" ;;
    esac
}

# So many calls, on a side, of a case; callgrind's file is named after their number.
profile() {
    valgrind -q --tool=callgrind --callgrind-out-file="$work/$1" --toggle-collect="$(entries "$2" "$3")" --skip-plt=no \
        --compress-strings=no --compress-pos=no "$program" "$2" "$3" "$1"
}

# One call on a side, of a case: a line 'instructions own|outside function' for each function.
functions() {
    profile 1 "$@" && profile 2 "$@" && awk '
        /^ob=/ { where = /\/count$/ ? "own" : "outside" }
        /^fn=/ { name = where " " substr($0, 4) }
        /^calls=/ { getline; next } # the next line tells what the callee takes, which has lines of its own
        /^[0-9]/ { took[name] += FILENAME ~ /1$/ ? -$2 : $2 }
        END { for (name in took) if (took[name] != 0) print took[name], name }' "$work/1" "$work/2"
}

# Their sum, at least 1: none at all means that the entries were not found.
total() {
    functions "$@" | awk '
        { sum[$2] += $1 }
        END {
            print sum["own"] (sum["outside"] ? "+" sum["outside"] : "")
            exit sum["own"] == 0
        }'
}

table() {
    printf '%5s  %9s  %9s  %s\n' ratio library model case
    for i in "${!names[@]}"; do
        if ! library=$(total library $((i + 1))) || ! model=$(total model $((i + 1))); then
            echo "counts.sh: not counted: ${names[i]}" >&2
            return 1
        fi
        awk -v l="$library" -v m="$model" -v name="${names[i]}" '
            function sum(text,    part) { split(text, part, "+"); return part[1] + part[2] }
            BEGIN { printf "%5.2f  %9s  %9s  %s\n", sum(l) / sum(m), l, m, name }'
    done
}

by_function() {
    for side in library model; do
        functions "$side" "$1" | sort -k1,1nr -k3 | awk -v side="$side" '{
            name = $0
            sub(/^[^ ]+ [^ ]+ /, "", name)
            printf "%-7s  %9d  %s%s\n", side, $1, name, $2 == "own" ? "" : " (outside)"
        }' || return 1
    done
}

if [ $# -eq 0 ]; then
    table
else
    by_function "$1"
fi
