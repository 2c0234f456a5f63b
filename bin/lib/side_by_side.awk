# A marked script next to its marked transcript, which appears first. If a line was typed to a machine that runs and nothing came of it, a
# note says so: it waits for the program. ended is the status of the program; where it is not 0, the
# transcript may end before the script does, and so does what is printed. What is reported after the last event is at the end.

FNR == NR {
    if ($0 == marker ": NOT LOGGED ON") done++
    else lines[done + 0, of[done + 0]++] = $0
    next
}

$0 == "LINE " marker {
    note()
    pair_with(held)
    held = ""
    event++
    if (ended != 0 && event > done) { stopped = 1; exit }
    next
}

{
    if (held != "") print held
    held = sprintf("%6d  %s", ++number, $0)
    if ($0 == "" || /^\*/) { print held; held = "" }
}

END {
    if (stopped) exit
    if (held != "") print held
    pair_with("")
}

# follows whose machine runs, over the event that is held and the effect of it, and adds the note
function note(   words, user, text, i, count, line, answers) {
    count = split(held, words, " ")
    user = words[3]
    text = words[2] == "LINE" ? words[4] : ""
    for (i = 0; i < of[event + 0] + 0; i++) {
        line = lines[event + 0, i]
        if (index(line, user ": ") == 1 || line == "= " user " FRAMES") answers++
        stops(line)
    }
    if (words[2] != "LINE" || answers) return
    if (text == "#CP" && count == 4) runs[user] = 0
    else if (runs[user] && text != "#CP") {
        lines[event + 0, 0] = "(the machine runs: the line waits for its program)"
        if (of[event + 0] + 0 == 0) of[event + 0] = 1
    } else {
        if (text == "#CP") text = words[5]
        if (text == "BEGIN" || text == "IPL") runs[user] = 1
    }
}

# a line of the transcript after which a machine does not run
function stops(line,   part) {
    split(line, part, " ")
    if (line ~ /^= [A-Z0-9]+ [0-9]+ (DISABLEDWAIT|ECMODE|STOPPED)$/) runs[part[2]] = 0
    if (line ~ /^[A-Z0-9]+: (STOPPED (DISABLED WAIT|EC MODE)|LOGOFF OK|SYSTEM RESET|IPL FAILED)$/) runs[substr(part[1], 1, length(part[1]) - 1)] = 0
}

# the effect of an event, next to its line where that is short
function pair_with(text,   i) {
    if (of[event + 0] + 0 == 0) { if (text != "") print text; return }
    if (length(text) > width + 8) { print text; text = "" }
    for (i = 0; i < of[event + 0]; i++) {
        printf "%-" (width + 8) "s | %s\n", text, lines[event + 0, i]
        text = ""
    }
}
