# check.sh: what the scripts run of this folder share. Each sources it with the word that its lines begin with; it is
# then in the repository's folder, and has a folder $work of its own.
set -u
subject=$1
cd "$(dirname "${BASH_SOURCE[0]}")/.."
work=$(mktemp -d)
trap 'rm -rf "$work"' EXIT
failures=0

# One case: its name, then the command that says whether it holds.
check() {
    local name=$1
    shift
    if "$@"; then
        echo "passed $subject $name"
    else
        echo "failed $subject $name"
        failures=$((failures + 1))
    fi
}

# The Nth block of C in README.md.
readme_c() {
    awk -v n="$1" '/^```c$/ { on = ++blocks == n; next } /^```$/ { on = 0 } on' README.md
}

# A comparison that ends at a mistake: its program, the line by which it says so, and what it must say to differ.
finds() {
    "target/bench/$1" > "$work/out"
    [ $? -eq 1 ] && grep -qx "$2" "$work/out" && grep -q " differs in $3\$" "$work/out" || { cat "$work/out"; return 1; }
}

# Runs a comparison with each mistake of a folder, of which a list has a line 'NAME | what differs'.
find_mistakes() {
    local program=$1 folder=$2 list=$3 line=$4
    check "all of $folder are tried" diff <(ls "$folder" | sed 's/\.edit$//') <(sed -n 's/^\([a-z0-9_]*\) | .*/\1/p' "$list")
    while IFS='|' read -r name differs; do
        check "finds ${name% }" finds "$program-${name% }" "$line" "${differs# }"
    done < <(grep -v '^#' "$list")
}
