# edit.awk: prints a C file with a mistake put into it.
#
#     awk -f bench/edit.awk bench/mistakes/NAME.edit bench/model.c
#
# An edit has the form of the must-fail edits: a line '# ..' says what is right, lines 'old: ' and 'new: ' what is
# replaced by what, as often as wanted. Lines in a row are one text. The old text must be there exactly once, so that an
# edit which no longer fits is noticed.
FNR == NR && /^old: / {
    text = substr($0, 6)
    if (last == "old")
        old[edits] = old[edits] "\n" text
    else
        old[++edits] = text
    last = "old"
}
FNR == NR && /^new: / {
    text = substr($0, 6)
    with[edits] = last == "new" ? with[edits] "\n" text : text
    last = "new"
}
FNR != NR { file = file $0 "\n" }

END {
    for (i = 1; i <= edits; i++) {
        at = index(file, old[i])
        rest = substr(file, at + length(old[i]))
        if (at == 0 || index(rest, old[i]) != 0) {
            print "edit.awk: not there exactly once: " old[i] > "/dev/stderr"
            exit 1
        }
        file = substr(file, 1, at - 1) with[i] rest
    }
    if (edits == 0)
        exit 1
    printf "%s", file
}
