#!/usr/bin/env bash
# stack.sh FILE [LIMIT] [NAME=BYTES | NAME<=BYTES ..]: the stack that each exported function (adk_..) of an x86-64 archive takes with all
# that it calls, return addresses included, from its machine code: the deepest chain of calls. Fails if a chain is deeper
# than LIMIT bytes (512), or meets what can't be followed: a call through a pointer, recursion, a frame whose size is not
# fixed, or a call that leaves the file. NAME=BYTES says what a function outside takes, its return address not counted;
# NAME<=BYTES is a limit of its own for an exported function.
#
# A frame is pushes, what is subtracted from the stack pointer, and what is used below it (the red zone).
set -u
if [ $# -lt 1 ] || [ ! -r "$1" ]; then
    echo "usage: stack.sh FILE [LIMIT] [NAME=BYTES | NAME<=BYTES ..]" >&2
    exit 2
fi
file=$1
limit=${2:-512}
shift $(($# < 2 ? $# : 2))

objdump -dr --no-show-raw-insn "$file" | LC_ALL=C awk -v limit="$limit" -v measured="$*" '
# A hexadecimal number of 64 bits, signed. A negative one is read by its complement, since awk counts in doubles.
function hex(s,    i, v, negative) {
    negative = length(s) == 16 && s ~ /^[89a-f]/
    v = 0
    for (i = 1; i <= length(s); i++)
        v = v * 16 + (negative ? 16 - index("0123456789abcdef", substr(s, i, 1)) \
                               : index("0123456789abcdef", substr(s, i, 1)) - 1)
    return negative ? -(v + 1) : v
}

# The number behind the first match of the pattern, e.g. "-0x" before "(%rsp".
function number_at(text, pattern) {
    if (!match(text, pattern))
        return 0
    text = substr(text, RSTART, RLENGTH)
    match(text, /0x[0-9a-f]+/)
    return hex(substr(text, RSTART + 2, RLENGTH - 2))
}

function reaches(n) {
    if (n > frame[f])
        frame[f] = n
}

function begin_function(name) {
    follow()
    here = name
    f = member SUBSEP name
    if (!(f in frame)) {
        functions++
        order[functions] = f
        frame[f] = 0
        if (!(name in defined))
            defined[name] = f
    }
    start[member SUBSEP section SUBSEP hex($1)] = f
}

# Follows the function that was read along its jumps. How deep the stack is behind a jump is known once one to that place
# was met, which may stand further on: so it is gone through until nothing new is learned, and then once more to count.
function follow(    k) {
    if (lines == 0)
        return
    for (k in known)
        delete known[k]
    do {
        learned = 0
        trace(0)
    } while (learned)
    trace(1)
    lines = 0
}

# A place behind a jump that no jump leads to is one of a table of jumps, if there is one. Nothing is known of others: it is
# what fills up to the next function, or can not be followed.
function trace(counts,    i, at) {
    depth = 0
    base = guess = -1
    for (i = 1; i <= lines; i++) {
        at = line_at[i]
        if (depth < 0)
            depth = (at in known) ? known[at] : guess
        else if ((at in known) && known[at] != depth)
            doubt(f, "has no fixed size (" depth " or " known[at] " at " at ")")
        if (depth < 0) {
            if (counts && line_op[i] !~ /^(nop|xchg|int3|data16)/)
                doubt(f, "has code that no jump leads to")
            continue
        }
        if (line_branch[i] == "")
            moves(line_op[i], line_args[i])
        else
            branches(i, counts)
        if (counts)
            reaches_by(line_args[i])
        if (line_op[i] ~ /^(jmp|ret|ud2|hlt)/)
            depth = -1
    }
}

function branches(i, counts,    name) {
    name = line_target[i]
    if (line_branch[i] == "jump" && name == here) {
        if (!(line_to[i] in known)) {
            known[line_to[i]] = depth
            learned = 1
        }
    } else if (line_branch[i] == "jump" && name == "") {
        guess = depth
    } else if (counts && name == "") {
        indirect[f]++
    } else if (counts) {
        calls++
        from[calls] = f
        to[calls] = name
        site[calls] = depth + (line_branch[i] == "call" ? 8 : 0)
    }
}

function reaches_by(args) {
    reaches(depth)
    reaches(depth + number_at(args, "-0x[0-9a-f]+\\(%rsp"))
    if (base >= 0)
        reaches(base + number_at(args, "-0x[0-9a-f]+\\(%rbp"))
}

# What an instruction does to the stack pointer.
function moves(op, args) {
    if (op ~ /^push/)
        depth += 8
    else if (op ~ /^popf?q?$/)
        depth -= 8
    else if (op == "sub" && args ~ /^\$0x[0-9a-f]+,%rsp$/)
        depth += number_at(args, "0x[0-9a-f]+")
    else if (op == "add" && args ~ /^\$0x[0-9a-f]+,%rsp$/)
        depth -= number_at(args, "0x[0-9a-f]+")
    else if (op == "and" && args ~ /^\$0x[0-9a-f]+,%rsp$/)
        depth -= number_at(args, "0x[0-9a-f]+")
    else if (op == "lea" && args ~ /^-0x[0-9a-f]+\(%rsp\),%rsp$/)
        depth += number_at(args, "0x[0-9a-f]+")
    else if (op == "lea" && args ~ /^0x[0-9a-f]+\(%rsp\),%rsp$/)
        depth -= number_at(args, "0x[0-9a-f]+")
    else if (op == "lea" && args ~ /^-0x[0-9a-f]+\(%rbp\),%rsp$/ && base >= 0)
        depth = base + number_at(args, "0x[0-9a-f]+")
    else if (op == "mov" && args == "%rsp,%rbp")
        base = depth
    else if (op == "mov" && args == "%rbp,%rsp" && base >= 0)
        depth = base
    else if (op == "leave" && base >= 0)
        depth = base - 8
    else if (args ~ /,%rsp$/ && op !~ /^(cmp|test)/ || op == "enter" || op == "leave")
        unfixed[f] = op " " args
}

# The target of a call or jump as the disassembly shows it: "4f <name+0x4f>". Through a pointer it shows a star.
function shown(args,    name) {
    if (args ~ /^\*/)
        return ""
    name = args
    sub(/^[^<]*</, "", name)
    sub(/>.*$/, "", name)
    sub(/\+0x[0-9a-f]+$/, "", name)
    return name
}

# A relocation names the target; a section in place of a name is looked up when all functions are known.
function relocated(symbol,    offset) {
    offset = 0
    if (match(symbol, /[-+]0x[0-9a-f]+$/)) {
        offset = hex(substr(symbol, RSTART + 3)) * (substr(symbol, RSTART, 1) == "-" ? -1 : 1)
        symbol = substr(symbol, 1, RSTART - 1)
    }
    if (symbol == here)
        return "@" f
    return symbol ~ /^\./ ? "@" member SUBSEP symbol SUBSEP (offset + 4) : symbol
}

# The function that a call goes to, or "" where it leaves the file.
function callee(i,    name, m) {
    name = to[i]
    if (name ~ /^@/) {
        name = substr(name, 2)
        return name in start ? start[name] : name in frame ? name : ""
    }
    m = from[i]
    sub(SUBSEP ".*$", "", m)
    if ((m SUBSEP name) in frame)
        return m SUBSEP name
    return name in defined ? defined[name] : ""
}

function plain_name(g) {
    sub("^[^" SUBSEP "]*" SUBSEP, "", g)
    return g
}

# Why the stack that a function takes is not known; empty where it is.
function doubt(g, why) {
    if (doubts[g] == "")
        doubts[g] = plain_name(g) " " why
}

# The stack that a function takes with all that it calls, without its own return address.
function deep(g,    i, c, d) {
    if (g in total)
        return total[g]
    if (g in visiting) {
        doubt(g, "calls itself")
        return 0
    }
    visiting[g] = 1
    total_of[g] = frame[g]
    next_of[g] = ""
    if (g in unfixed)
        doubt(g, "has no fixed size (" unfixed[g] ")")
    if (g in indirect)
        doubt(g, "calls through a pointer")
    for (i = first[g]; i > 0; i = after[i]) {
        c = callee(i)
        if (c == "")
            c = outside(g, plain_name(SUBSEP to[i]))
        d = site[i] + deep(c)
        if (doubts[g] == "")
            doubts[g] = doubts[c]
        if (d > total_of[g]) {
            total_of[g] = d
            next_of[g] = c
        }
    }
    delete visiting[g]
    total[g] = total_of[g]
    return total[g]
}

# A function outside the file, as one that takes what was measured.
function outside(g, name,    c) {
    c = SUBSEP name
    if (!(name in took))
        doubt(g, "calls " name ", which is not in the file")
    total[c] = name in took ? took[name] : 0
    met[name] = 1
    return c
}

function chain(g,    text, seen) {
    text = plain_name(g)
    seen[g] = 1
    for (g = next_of[g]; g != "" && !(g in seen); g = next_of[g]) {
        text = text " > " plain_name(g)
        seen[g] = 1
    }
    return text
}

BEGIN {
    count = split(measured, pair, " ")
    for (i = 1; i <= count; i++) {
        at = index(pair[i], "=")
        if (substr(pair[i], at - 1, 1) == "<")
            own_limit[substr(pair[i], 1, at - 2)] = substr(pair[i], at + 1) + 0
        else
            took[substr(pair[i], 1, at - 1)] = substr(pair[i], at + 1)
    }
}

/file format/ {
    follow()
    member = $1
    sub(/:$/, "", member)
    if ($0 !~ /elf64-x86-64/)
        foreign = $NF
    next
}
/^Disassembly of section / {
    follow()
    section = $NF
    sub(/:$/, "", section)
    next
}
/^[0-9a-f]+ <.*>:$/ {
    name = $0
    sub(/^[0-9a-f]+ </, "", name)
    sub(/>:$/, "", name)
    begin_function(name)
    next
}
/^\t\t\t[0-9a-f]+: R_X86_64/ {
    if (line_branch[lines] != "" && (line_target[lines] != "" || line_args[lines] ~ /^\*.*\(%rip\)/))
        line_target[lines] = relocated($NF)
    next
}
/^ *[0-9a-f]+:\t/ {
    split($0, column, "\t")
    address = column[1]
    gsub(/[ :]/, "", address)
    text = column[2]
    sub(/ +#.*$/, "", text)
    sub(/ +$/, "", text)
    while (text ~ /^(notrack|bnd|lock|rep|repz|repnz|data16|cs) /)
        sub(/^[a-z0-9]+ +/, "", text)
    op = text
    sub(/ .*$/, "", op)
    args = text
    sub(/^[^ ]+ */, "", args)
    lines++
    line_at[lines] = hex(address)
    line_op[lines] = op
    line_args[lines] = args
    line_branch[lines] = op ~ /^call/ ? "call" : op ~ /^j/ ? "jump" : ""
    line_target[lines] = line_branch[lines] == "" ? "" : shown(args)
    line_to[lines] = args ~ /^[0-9a-f]+/ ? hex(substr(args, 1, match(args, / |$/) - 1)) : -1
}

END {
    follow()
    for (i = calls; i > 0; i--) {
        after[i] = first[from[i]]
        first[from[i]] = i
    }
    failed = 0
    exported = 0
    deepest = 0
    if (foreign != "") {
        print "failed stack: no x86-64 machine code"
        exit 1
    }
    for (i = 1; i <= functions; i++) {
        g = order[i]
        if (plain_name(g) !~ /^adk_/)
            continue
        exported++
        bytes = deep(g) + 8
        printf "%6d  %s\n", bytes, chain(g)
        most = plain_name(g) in own_limit ? own_limit[plain_name(g)] : limit
        if (bytes > deepest && most == limit)
            deepest = bytes
        if (doubts[g] != "" || bytes > most) {
            printf "failed stack %s: %s\n", plain_name(g), doubts[g] != "" ? doubts[g] : bytes " bytes, over " most
            failed++
        }
    }
    for (name in met)
        printf "outside the file: %s, %s bytes as measured\n", name, name in took ? took[name] : "?"
    if (exported == 0) {
        print "failed stack: no exported function"
        failed++
    }
    if (failed == 0)
        printf "passed stack: %d exported functions, the deepest chain of calls takes %d of %d bytes\n", exported, deepest, limit
    exit failed > 0
}'
