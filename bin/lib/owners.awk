# Adds to a map of tracks whose cylinders they are: awk -v directory=FILE -f owners.awk MAP.
# After the line VOLUME there is a line for each minidisk that the directory has on that volume, by its first cylinder,
# and one for each extent between them that is nobody's. Lines that bin/vm370 would refuse are passed over.

function is_number(word, longest) {
    return word ~ /^[0-9]+$/ && length(word) <= longest
}

# keeps the minidisks of a volume, and says how many there are
function read_directory(serial,    line, words, user, found) {
    while ((getline line < directory) > 0) {
        sub(/\r$/, "", line)
        if (split(line, words, " ") == 0) continue
        if (words[1] == "USER") user = words[2]
        if (words[1] != "MDISK" || words[3] != "3330" || words[6] != serial) continue
        if (!is_number(words[4], 4) || !is_number(words[5], 4) || words[5] == 0) continue
        found++
        first[found] = words[4] + 0
        past[found] = words[4] + words[5]
        owner[found] = user " " words[2] " " words[7]
    }
    close(directory)
    return found + 0
}

# the places of the minidisks in the order of their cylinders
function sort_minidisks(count,    at, place, moved) {
    for (at = 1; at <= count; at++) order[at] = at
    for (at = 2; at <= count; at++) {
        moved = order[at]
        for (place = at - 1; place > 0 && first[order[place]] > first[moved]; place--) order[place + 1] = order[place]
        order[place + 1] = moved
    }
}

function print_extent(low, high, whose) {
    if (low < high) print "CYLINDERS " low " TO " high - 1 " " whose
}

function print_owners(serial, cylinders,    count, at, shown) {
    count = read_directory(serial)
    sort_minidisks(count)
    shown = 0
    for (at = 1; at <= count; at++) {
        print_extent(shown, first[order[at]], "FREE")
        print_extent(first[order[at]], past[order[at]], owner[order[at]])
        if (past[order[at]] > shown) shown = past[order[at]]
    }
    print_extent(shown, cylinders, "FREE")
}

{ print }
NR == 1 && $1 == "VOLUME" { print_owners($2, $4 + 0) }
