# The user to mark with, from a directory and a script: "new NAME", a user whom the directory has yet to state, or where it
# has 64 already "old NAME", one whom the script does not name.

FNR == NR {
    if ($1 == "USER") { users[$2] = ++count }
    next
}
{ named[$2] = 1; if (index($0, "ZZZZ")) seen = seen " " $0 }

END {
    if (count < 64) {
        for (i = 0; i < 1000; i++) {
            name = sprintf("ZZZZZ%03d", i)
            if (!(name in users) && !index(seen, name)) { print "new " name; exit }
        }
    }
    for (name in users) if (!(name in named)) { print "old " name; exit }
    exit 1
}
