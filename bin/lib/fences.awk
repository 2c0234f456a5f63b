# The transcript of one machine with a mark in place of each fence: awk -f fences.awk MARKED TRANSCRIPT
#
# MARKED is the script with marks, lines "LINE marker". The machine was given a fence of two commands for each: one that is
# unknown and one with an operand too many, which change nothing. They are answered by two lines, or where the user is off by
# twice NOT LOGGED ON; a line that is typed then is answered so itself.

FNR == NR {
    if (cards > 0) {
        cards--
    } else if ($0 == "LINE " marker) {
        is_line[++marks] = last ~ /^LINE /
    } else {
        last = $0
        if ($0 ~ /^DECK /) cards = $3 + 0
    }
    next
}
{ lines[++count] = $0 }

END {
    at = 1
    for (mark = 1; mark <= marks && at <= count; mark++) {
        if (is_line[mark] && lines[at] == off) print lines[at++]
        while (at <= count && !is_fence(at)) print lines[at++]
        if (at <= count) print marker ": NOT LOGGED ON"
        at += 2
    }
    for (; at <= count; at++) print lines[at]
}

function is_fence(at) {
    if (lines[at] == off) return lines[at + 1] == off
    return lines[at] == "BARE: UNKNOWN COMMAND" && lines[at + 1] == "BARE: BAD OPERAND 4"
}

BEGIN { off = "BARE: NOT LOGGED ON" }
