# The option that a wrong one was perhaps meant to be: awk -v wrong=NAME -v known="NAME NAME:.." -f nearest.awk; with -v words=1 the
# word. It differs in few letters, or goes on where the wrong one ends.

function least(a, b) { return a < b ? a : b }

# how many letters are to be changed, added or taken away
function distance(left, right,   i, j, row, before, kept) {
    for (j = 0; j <= length(right); j++) row[j] = j
    for (i = 1; i <= length(left); i++) {
        before = row[0]
        row[0] = i
        for (j = 1; j <= length(right); j++) {
            kept = row[j]
            row[j] = least(least(row[j], row[j - 1]) + 1, before + (substr(left, i, 1) != substr(right, j, 1)))
            before = kept
        }
    }
    return row[length(right)]
}

BEGIN {
    best = 3
    count = split(words ? known : known " help version", names, /:? +/)
    for (i = 1; i <= count; i++) {
        if (names[i] == "") continue
        sub(/:$/, "", names[i])
        far = index(names[i], wrong) == 1 && length(wrong) > 2 ? 1 : distance(wrong, names[i])
        if (far < best && far < length(wrong)) { best = far; found = names[i] }
    }
    if (found != "") print (words ? "" : "--") found
}
