# What the commands share that run a part of the program, which $runs names: the judging of their words and files, the run, and what is reported of a
# fault. Sourced after bin/lib/common.sh.

# shellcheck source=bin/lib/building.sh
. "$root/bin/lib/building.sh"

# --- words and files, judged before any build ---

# the paths of a run, and how many words are before the volumes: read_script_path FIRST. A run part by part has no script
read_script_path() {
    script=
    [ -z "${option_terminals-}" ] || [ -n "${option_follow-}" ] || usage_error '--terminals is for --follow'
    if [ -n "${option_follow-}" ]; then
        need_paths "$1" '[..]'
        number=2
    else
        need_paths "$1" SCRIPT '[..]'
        script=$path2
        number=3
    fi
}

# the words of a command over a directory, a script and volumes, or with --follow no script: read_run_arguments MORE_OPTIONS WORD..
read_run_arguments() {
    more=$1
    shift
    read_arguments "frames: slots: save $more" "$@"
    # fewer than 16 frames are refused when the system boots
    check_number --frames "${option_frames-64}" 0 4096 16
    check_number --slots "${option_slots-256}" 0 65536
    read_script_path DIRECTORY
    check_texts "$@"
    read_standard_input 1
    script=${script:+$path2}
    directory=$path1
    check_readable "$directory"
    [ -n "${option_follow-}" ] || check_readable "$script"
    check_states
    check_volumes "$number"
}

# whether states go with the other words, and their files can be read and written
check_states() {
    states=
    [ -n "${option_state+given}${option_save_state+given}" ] || return 0
    [ -z "${option_follow-}" ] || usage_error '--state and --save-state are for scripts'
    [ -z "${option_state+given}" ] || check_readable "$option_state"
    [ -z "${option_save_state+given}" ] || check_writable "$option_save_state"
    command -v python3 > /dev/null || fail "$no_python" "states need python3, which is not there"
    states=true
}

# Chooses what runs the script: where it has a line for people, or an option asks for it, python3 gives it to the program event by
# event (bin/lib/gathjumli/script_runs.py). A script that can be read only once is copied, so that its lines can be looked at.
choose_runner() {
    by_event=${option_quiet-}${option_strict-}
    if [ -n "${option_follow-}" ]; then
        [ -z "$by_event" ] || usage_error '--quiet and --strict are not for --follow'
        return 0
    fi
    command -v python3 > /dev/null || {
        [ -z "$by_event" ] || fail "$no_python" "--quiet and --strict need python3, which is not there"
        return 0
    }
    given_script=$script
    script_name=$script
    if [ ! -f "$script" ]; then
        copied=$(mktemp) || fail "$file_failed" "no copy of $script can be made"
        trap 'rm -f -- "$copied"' EXIT
        cat -- "$script" > "$copied" || exit "$file_failed"
        script=$copied
        [ "$given_script" != /dev/stdin ] || script_name='standard input'
    fi
    # why an IPL fails is reported too
    ! grep -qaE '^(LOAD( .*)?|AUTO|LINE [^ ]+ +(#CP +)?IPL .*)$' -- "$script" || by_event=true
}

# the words of a command over one machine: read_bare_arguments MORE_OPTIONS WORD..
read_bare_arguments() {
    more=$1
    shift
    read_arguments "save $more" "$@"
    storage=
    read_script_path STORAGE
    check_storage "$path1"
    storage=$path1
    [ "$count" -le $((15 + number)) ] || usage_error "a machine has at most 16 volumes, and these are $((count - number + 1))"
    check_texts "$@"
    read_standard_input 2
    script=${script:+$path2}
    [ -n "${option_follow-}" ] || check_readable "$script"
    check_volumes "$number"
}

# whether the volumes, the words from this one on, can be read, and written too where they are saved: check_volumes NUMBER
check_volumes() {
    number=$1
    first_image=$1
    while [ "$number" -le "$count" ]; do
        eval "path=\$path$number"
        check_readable "$path"
        [ -z "${option_save-}" ] || check_writable "$path"
        number=$((number + 1))
    done
}

# whether a machine may have this storage, 8K to 4096K in steps of 4K, or 1M to 4M
check_storage() {
    digits=${1%[KM]}
    case $digits in
    '' | 0* | *[!0-9]* | ?????*) digits=0 ;;
    esac
    case $1 in
    *K) [ "$digits" -lt 8 ] || [ "$digits" -gt 4096 ] || [ $((digits % 4)) -ne 0 ] || return 0 ;;
    *M) [ "$digits" -lt 1 ] || [ "$digits" -gt 4 ] || return 0 ;;
    esac
    usage_error "STORAGE is 8K to 4096K in steps of 4K, or 1M to 4M, and not $1"
}

# the programs read their words as texts
check_texts() {
    command -v iconv > /dev/null || return 0
    printf '%s' "$*" | iconv -f UTF-8 -t UTF-8 > /dev/null 2>&1 ||
        usage_error "a path is no UTF-8 text: name the file by another path, as a link to it"
}

# whether a file can be read
check_readable() {
    [ -e "$1" ] || fail "$file_failed" "$1 is not there"
    [ ! -d "$1" ] || fail "$file_failed" "$1 is a folder"
    [ -r "$1" ] || fail "$file_failed" "$1 cannot be read"
}

# whether a file can be written
check_writable() {
    [ ! -d "$1" ] || fail "$file_failed" "$1 is a folder"
    if [ -e "$1" ]; then
        [ -w "$1" ] || fail "$file_failed" "$1 cannot be written"
    else
        [ -d "$(dirname -- "$1")" ] && [ -w "$(dirname -- "$1")" ] ||
            fail "$file_failed" "$1 cannot be written: its folder is not there, or cannot be written"
    fi
}

# the statuses of a command that builds and runs, for its usage text; 1 is said of what is named
build_statuses() {
    cat <<END_OF_STATUSES
  0   it ended well
  1   $1 is refused; standard error says where
  2   usage error
  3   a file failed
  4   the host had no memory
 70   the program was not built; standard error has the log
 71   the Rattle kit is not there (no rt in PATH), and the program is not built
 72   the program is not built, and its folder cannot be written
END_OF_STATUSES
}

# --- running ---

# Runs the command's part of the program on these words but --unproved, with standard input for a path -, and ends as it does. If it names a line of a text that is
# refused, that line is shown: of the file in $script, $directory or $text. A signal ends the program too. If $watches is set, somebody at a terminal sees how many
# events are done.
run_program() {
    is_option=true
    for word in "$@"; do
        shift
        [ "$word" != - ] || word=/dev/stdin
        [ -z "${copied-}" ] || [ "$word" != "$given_script" ] || word=$copied
        [ "$is_option$word" = true--unproved ] || set -- "$@" "$word"
        [ "$word" != -- ] || is_option=
    done
    # what is reported, which is explained afterwards; without room for it nothing is explained
    errors=$(mktemp 2> /dev/null) || errors=
    trap 'rm -f -- ${errors:+"$errors"} ${copied:+"$copied"}' EXIT
    if [ -n "$errors" ] && (echo > "$errors") 2> /dev/null; then
        explains=true
        exec 6> "$errors"
    else
        explains=
        exec 6>&2
    fi
    # what runs next to a shell has no standard input, unless it is given it
    exec 4<&0
    running=
    trap 'stop_program 129' HUP
    trap 'stop_program 130' INT
    trap 'stop_program 143' TERM
    if [ -n "${by_event-}" ]; then
        PYTHONDONTWRITEBYTECODE=1 python3 "$root/bin/lib/run.py" script_runs "$name" "$program" "$runs" "${script_name-}" "$@" <&4 2>&6 6>&- &
    elif [ -n "${states-}" ]; then
        PYTHONDONTWRITEBYTECODE=1 python3 "$root/bin/lib/run.py" "${state_runner-state_runs}" "$name" "$program" "$@" <&4 2>&6 6>&- &
    elif [ -n "${watches-}" ] && [ -t 2 ] && [ -z "${option_follow-}" ] && command -v python3 > /dev/null; then
        PYTHONDONTWRITEBYTECODE=1 python3 "$root/bin/lib/run.py" watched "$name" "$script" "$program" "$runs" "$@" <&4 3>&2 2>&6 6>&- &
    else
        "$program" "$runs" "$@" <&4 2>&6 6>&- &
    fi
    running=$!
    ended=0
    wait "$running" || ended=$?
    if [ -n "$explains" ]; then
        cat -- "$errors" >&2
        explain "$(head -n 1 -- "$errors")"
    fi
    exit "$ended"
}

# stop_program STATUS: ends the program that runs, once all that it printed is shown
stop_program() {
    trap '' HUP INT TERM
    [ -z "$running" ] || {
        kill "$running" 2> /dev/null || true
        wait "$running" || true
    }
    exit "$1"
}

# what is reported after a fault: the lines that it names, and why it is one
explain() {
    case $1 in
    'fault: script Line '*) show_line "${1##* }" "$script" ;;
    'fault: text Line '*) show_line "${1##* }" "$text" ;;
    'fault: directory '*)
        for number in ${1#fault: directory * }; do
            show_line "$number" "$directory"
        done
        ;;
    'fault: image '* | 'fault: boot '*) ;;
    *) return ;;
    esac
    print_reason "$1"
}

# print_reason FAULT: what is wrong and what would be right, of this fault and of those after it, where python3 is there to find it out
print_reason() {
    command -v python3 > /dev/null || return 0
    set -- "$name" "$program" "$runs" "$1" "${option_frames-}" "${option_slots-}" "${script_name-}" "${directory-}" "${script-}" "${text-}" "${storage-}"
    number=${first_image-}
    while [ -n "$number" ] && [ "$number" -le "$count" ]; do
        eval "set -- \"\$@\" \"\$path$number\""
        number=$((number + 1))
    done
    PYTHONDONTWRITEBYTECODE=1 python3 "$root/bin/lib/run.py" faults "$@" >&2 || return 0
}

# show_line NUMBER FILE: a line, with what cannot be seen of it
show_line() {
    [ -f "$2" ] || return 0
    tr '\000' '\001' < "$2" | LC_ALL=C awk -v number="$1" -v name="$name" '
        NR == number {
            is_found = 1
            if (/[\001-\010\016-\037]/) { print name ": line " number " is no text, and is not shown"; exit }
            notes = ""
            if (sub(/\r$/, "")) notes = notes ", with a carriage return at its end"
            if ($0 ~ / $/) notes = notes ", with a blank at its end"
            if ($0 ~ /\t/) notes = notes ", with a tab"
            if ($0 ~ /^\357\273\277/) notes = notes ", with a byte order mark before it"
            if (length($0) > 200) { notes = notes ", with " length($0) " bytes"; $0 = substr($0, 1, 200) }
            gsub(/[\001-\037\177]/, "?")
            print name ": line " number " is: " $0 (notes == "" ? "" : " (" substr(notes, 3) ")")
            exit
        }
        END { if (!is_found) print name ": line " number " is not there: the text has " NR " lines" }
    ' >&2
}
