# What the listings share: a script is played with marks after its events, and printed next to its transcript. Sourced after
# bin/lib/program.sh.

# the width of a line that has its consequences next to it, from the option
read_width() {
    width=${option_width-48}
    check_number --width "$width" 0 999
}

# a folder for copies, which goes with the command
start_work() {
    work=$(mktemp -d)
    trap 'rm -rf -- "$work"' EXIT
    trap 'exit 129' HUP
    trap 'exit 130' INT
    trap 'exit 143' TERM
    export LC_ALL=C
}

# copy_text FROM TO: a copy of a text, whose last line is whole
copy_text() {
    awk 1 < "$1" > "$2" || fail "$not_copied" "no copy of $1 can be made in $work"
}

# mark_script MARK TO: the copied script with these lines after each event
mark_script() {
    awk -v mark="$1" -f "$root/bin/lib/marks.awk" "$work/script" > "$2" ||
        fail "$not_copied" "no copy of the script can be made in $work"
}

# play WORD..: runs the command's part of the program on these words, after which the played script and the volumes stand
play() {
    set -- "$@" "$work/played"
    number=3
    while [ "$number" -le "$count" ]; do
        eval "set -- \"\$@\" \"\$path$number\""
        number=$((number + 1))
    done
    "$program" "$runs" ${option_save:+--save} "$@"
}

# Prints the marked script $work/marked next to the marked transcript, says the faults of the played script $work/played, in
# which the lines of a list are marks, and ends as the program did.
finish_listing() {
    [ ! -s "$work/transcript" ] && [ "$ended" -ne 0 ] ||
        printing awk -v marker="$marker" -v width="$width" -v ended="$ended" -f "$root/bin/lib/side_by_side.awk" \
            "$work/transcript" "$work/marked"
    while IFS= read -r line; do
        case $line in
        'fault: script Line '*)
            number=$(sed -n "1,${line##* }p" "$work/played" | grep -cvxF -f "$work/marks")
            line="fault: script Line $number"
            ;;
        esac
        printf '%s\n' "$line" >&2
        script_name=$script script=$work/script explain "$line"
    done < "$work/faults"
    exit "$ended"
}
