# How the program that all commands run is built: proved, or without any proof where --unproved is given or GATHJUMLI_UNPROVED is 1.
# Sourced by bin/lib/program.sh. What bin/install has put somewhere has its program, and is never built.

# its crate; its first word names the part that is run
program_crate=gathjumli_cli

# crates_of CRATE: the crates that it uses, lowest first and itself last
crates_of() {
    awk -v wanted="$1" '
        { sub(/#.*/, "") }
        /:/ {
            split($0, halves, ":")
            split(halves[1], words, " ")
            listed[words[1]] = 1
            below[words[1]] = halves[2]
        }
        function visit(crate,   count, names, i) {
            if (seen[crate]++ || !listed[crate]) return
            count = split(below[crate], names, " ")
            for (i = 1; i <= count; i++) visit(names[i])
            print crate
        }
        END { visit(wanted) }
    ' "$root/crates.txt"
}

# the kit that rt belongs to, or nothing where there is none
kit() {
    rt=$(command -v rt) || return 0
    identity=$(dirname -- "$(dirname -- "$(readlink -f -- "$rt")")")/KIT-ID
    if [ -r "$identity" ]; then
        cat -- "$identity"
    else
        rt version
    fi
}

# the lines of crates.txt for these folders of crates
listed() {
    awk -v wanted=" $1 " '
        { sub(/#.*/, ""); split($0, halves, ":"); split(halves[1], words, " ") }
        words[1] != "" && index(wanted, " crates/" words[1] " ")
    ' crates.txt
}

# one number for the names and the contents of all that a program is made of
sources() {
    (
        unset CDPATH
        cd -- "$root"
        set --
        for crate in $(crates_of "$program_crate"); do
            set -- "$@" "crates/$crate"
        done
        {
            listed "$*"
            find "$@" \( -name out -o -name data -o -name must-fail -o -name planted \) -prune -o \
                -type f \( -name '*.rt' -o -name '*.antt' \) -exec cksum {} +
        } | LC_ALL=C sort | cksum
    )
}

# whether the program was built of these sources by this kit; without a kit, whether of these sources
is_built() {
    [ -x "$program" ] && [ -r "$mark" ] || return 1
    {
        IFS= read -r built_sources
        IFS= read -r built_kit
    } < "$mark" || return 1
    [ "$built_sources" = "$now_sources" ] || return 1
    [ -z "$now_kit" ] || [ "$built_kit" = "$now_kit" ]
}

# $program is then the program, built of what the sources are now, and proved unless --unproved or the environment asks for one that
# is not
ensure_built() {
    make_program
    [ "$(state_of_program)" = proved ] || say "not proved; slow"
}

make_program() {
    find_program
    if [ -n "$installed" ]; then
        [ -x "$program" ] || fail "$not_built" "$program is not there: install Gathjumli anew"
    elif [ -n "$without_proof" ]; then
        is_compiled || compile
    else
        is_built || build
    fi
}

# sets $program to the path of the program, which may not be built yet, and $now_sources and $now_kit to what it would be built of
find_program() {
    installed=
    read_unproved
    if [ -d "$root/programs" ]; then
        installed=$root/programs/$program_crate.built
        program=$root/programs/$program_crate
        return
    fi
    folder=$root/crates/$program_crate
    now_sources=$(sources)
    now_kit=$(kit)
    if [ -n "$without_proof" ]; then
        find_compiled
    else
        program=$folder/out/$program_crate
        mark=$folder/out/built
    fi
}

# whether programs run without proof: by the option, or by the environment, which says it to all commands that this one starts
read_unproved() {
    [ -z "${option_unproved-}" ] || export GATHJUMLI_UNPROVED=1
    without_proof=${GATHJUMLI_UNPROVED-}
    case $without_proof in
    '' | 1) ;;
    *) usage_error "GATHJUMLI_UNPROVED is 1 or empty, and not $without_proof" ;;
    esac
}

# what the program is made of, and whether it is proved
describe_program() {
    find_program
    if [ -n "$installed" ]; then
        cat -- "$installed"
    else
        echo "sources $(printf '%s' "$now_sources" | tr ' ' -)"
        echo "kit ${now_kit:-none}"
        state_of_program
    fi
}

# one of: proved, not proved, not built
state_of_program() {
    if [ -n "$installed" ]; then
        tail -n 1 -- "$installed"
    elif [ -n "$without_proof" ]; then
        if is_compiled; then echo 'not proved'; else echo 'not built'; fi
    elif is_built; then
        echo proved
    else
        echo 'not built'
    fi
}

# --- with proofs ---

# Proves each crate that the program uses, side by side those that do not need each other, and then builds and runs the program
# on what lies next to its sources. What is proved is kept: a build that was broken off goes on from there. Two builds at once wait for
# each other, crate by crate; each has logs of its own.
build() {
    need_kit
    mkdir -p -- "$folder/out" 2> /dev/null && logs=$(mktemp -d -- "$folder/out/build.XXXXXX" 2> /dev/null) && aside=$(mktemp -d) ||
        fail "$not_writable" "the program is not built, and $folder/out or the folder of temporary files cannot be written"
    # logs of builds that failed or were broken off
    find "$folder/out" -name 'build.??????' -mtime +6 -exec rm -rf -- {} +
    # rt refuses a pipe among them
    rm -f -- "$folder"/out/build.*/ended
    # shellcheck disable=SC2046
    set -- $(crates_of "$program_crate")
    crates=" $* "
    crate_count=$#
    began=$(date +%s)
    progress=$folder/out/building.$$
    places=$(places)
    print_prospects
    say "without proof it runs in about two minutes, with --unproved or GATHJUMLI_UNPROVED=1 in the environment"
    say "the logs are in $logs"
    prove_all
    print_progress "building $program_crate, $crate_count of $crate_count"
    (unset CDPATH && cd -- "$folder" && run_once) > "$logs/$program_crate.log" 2>&1 < /dev/null || refuse_build "$program_crate"
    # of what the sources were when it began: an edit that was made meanwhile is seen the next time
    printf '%s\n%s\n' "$now_sources" "$now_kit" > "$mark.$$"
    mv -f -- "$mark.$$" "$mark"
    [ "$never_proved" -eq 0 ] || echo "$(minutes_gone) $never_proved" > "$folder/out/took"
    rm -rf -- "$logs" "$aside" "$progress"
}

need_kit() {
    [ -n "$now_kit" ] || fail "$no_kit" "the program is not built, and the Rattle kit is not there: no rt in PATH"
}

# how many crates are proved side by side: one for each processor, and for each 2 GiB of memory that is free
places() {
    most=$(nproc 2> /dev/null) || most=1
    room=$(awk '/^MemAvailable:/ { print int($2 / 2097152) }' /proc/meminfo 2> /dev/null) || room=$most
    [ "$room" -ge "$most" ] || most=$room
    [ "$most" -ge 1 ] || most=1
    echo "$most"
}

# proves each crate but the program's, once those below it are proved; the end of each goes through a pipe
prove_all() {
    mkfifo -- "$aside/ended"
    exec 3<> "$aside/ended"
    trap 'stop_build 129' HUP
    trap 'stop_build 130' INT
    trap 'stop_build 143' TERM
    begun=' ' proved=' ' running=0 number=0
    while :; do
        for crate in $(ready); do
            [ "$running" -ge "$places" ] || begin "$crate"
        done
        [ "$running" -gt 0 ] || break
        read -r crate ended <&3
        running=$((running - 1))
        [ "$ended" -eq 0 ] || refuse_build "$crate"
        proved="$proved$crate "
    done
    trap - HUP INT TERM
    exec 3>&-
}

# the crates below the program that are not begun and stand on proved ones alone
ready() {
    awk -v crates="$crates" -v begun="$begun$program_crate " -v proved="$proved" '
        { sub(/#.*/, "") }
        split($0, halves, ":") == 2 {
            split(halves[1], words, " ")
            crate = words[1]
            if (!index(crates, " " crate " ") || index(begun, " " crate " ")) next
            count = split(halves[2], names, " ")
            for (i = 1; i <= count; i++)
                if (index(crates, " " names[i] " ") && !index(proved, " " names[i] " ")) next
            print crate
        }
    ' "$root/crates.txt"
}

# begin CRATE: it is proved next to the others, in a group of its own that stop_build can end. Whoever else works in its folder is
# waited for.
begin() {
    number=$((number + 1))
    running=$((running + 1))
    begun="$begun$1 "
    print_progress "proving $1, $number of $crate_count"
    apart=$(command -v setsid) || apart=
    (
        unset CDPATH
        ended=0
        exec 9< "$root/crates/$1"
        flock 9
        lay_out "$1" && cd -- "$checkout/crates/$1" &&
            $apart sh -c 'echo $$ > "$1" && exec rt lib' sh "$logs/$1.pid" > "$logs/$1.log" 2>&1 < /dev/null 3>&- 9<&- || ended=$?
        bring_back "$1"
        rm -f -- "$logs/$1.pid"
        echo "$1 $ended" >&3
    ) &
}

# lay_out CRATE: a checkout for it alone, outside the repository. One rt at a time works in a crate and in all those below it, and what
# many stand on would keep them from being proved side by side. It has copies of the sources, second names of the libraries below, and
# what was built of the crate before.
lay_out() {
    checkout=$aside/$1
    names=
    for name in $(crates_of "$1"); do
        names="$names crates/$name"
        mkdir -p -- "$checkout/crates/$name"
        for part in "$root/crates/$name"/*; do
            case ${part##*/} in
            out | data | must-fail | planted) ;;
            *) cp -R -- "$part" "$checkout/crates/$name/" ;;
            esac
        done
        built=$root/crates/$name/out
        if [ "$name" = "$1" ]; then
            [ ! -d "$built" ] || mv -- "$built" "$checkout/crates/$name/"
        elif [ -d "$built/rlib" ]; then
            mkdir -- "$checkout/crates/$name/out"
            cp -al -- "$built/rlib" "$checkout/crates/$name/out/" 2> /dev/null ||
                cp -R -- "$built/rlib" "$checkout/crates/$name/out/"
        fi
    done
    (cd -- "$root" && listed "$names") > "$checkout/crates.txt"
}

# bring_back CRATE: what is built of it lies where it did
bring_back() {
    [ ! -d "$checkout/crates/$1/out" ] || mv -- "$checkout/crates/$1/out" "$root/crates/$1/"
    rm -rf -- "$checkout"
}

# refuse_build CRATE: it was refused
refuse_build() {
    [ "$running" -eq 0 ] || say "$1 was refused; what is under way is waited for, since it is kept"
    wait
    rm -rf -- "$progress" "$aside"
    cat -- "$logs/$1.log" >&2
    fail "$not_built" "$1 was refused, and $program_crate is not built; the log is $logs/$1.log"
}

# stop_build STATUS: ends what is under way
stop_build() {
    for pid in "$logs"/*.pid; do
        [ ! -r "$pid" ] || kill -- "-$(cat -- "$pid")" 2> /dev/null || kill "$(cat -- "$pid")" 2> /dev/null || true
    done
    # what was under way is brought back
    turns=0
    while is_under_way && [ "$turns" -lt 100 ]; do
        sleep 0.1
        turns=$((turns + 1))
    done
    rm -rf -- "$progress" "$aside"
    say "broken off; what is proved is kept, and the next start goes on from there"
    exit "$1"
}

# whether a crate is still being proved
is_under_way() {
    for pid in "$logs"/*.pid; do
        [ ! -e "$pid" ] || return 0
    done
    return 1
}

# how many minutes the build has taken so far
minutes_gone() {
    echo $((($(date +%s) - began) / 60))
}

# lines_of CRATE..: of their code and proofs
lines_of() {
    for crate in "$@"; do
        find "$root/crates/$crate" \( -name out -o -name data \) -prune -o -type f \( -name '*.rt' -o -name '*.antt' \) -exec cat {} +
    done | wc -l | tr -d ' '
}

# what is to be done, how long that may take, and which other build is under way
print_prospects() {
    unproved=' '
    for crate in $crates; do
        [ -e "$root/crates/$crate/out/rlib" ] || [ "$crate" = "$program_crate" ] || unproved="$unproved$crate "
    done
    # shellcheck disable=SC2086
    set -- $unproved
    never_proved=$#
    lines=$(lines_of "$@")
    say "proving and building $program_crate: $crate_count crates, of which $# were never proved here, up to $places side by side"
    if [ -r "$folder/out/took" ] && read -r minutes before < "$folder/out/took"; then
        say "the last time it took $minutes minutes, for $before crates that were never proved before"
    elif [ "$never_proved" -gt 0 ]; then
        # a processor of 2.5 GHz proves some 800 lines a minute, and not all of them have work at the end
        least=$((1 + lines / (600 * places)))
        say "by the host that takes $least to $((2 * least)) minutes"
    else
        say "after an edit that takes mostly less than a minute, and many minutes where much stands on what was edited"
    fi
    for other in "$folder"/out/building.*; do
        [ -r "$other" ] || continue
        if kill -0 "${other##*.}" 2> /dev/null; then
            say "another build is under way: $(cat -- "$other"); what both need is proved once"
        else
            rm -f -- "$other"
        fi
    done
}

# says a step, here and to other builds: how long it has taken, and how long the rest takes if it goes on so
print_progress() {
    gone=$(minutes_gone)
    message=$1
    [ "$gone" -eq 0 ] || message="$message, after $gone minutes$(minutes_left_text)"
    say "$message"
    echo "$program_crate is $1, after $gone minutes" > "$progress"
}

# the minutes that are left, by the lines that were proved so far
minutes_left_text() {
    done=
    for crate in $unproved; do
        case $proved in
        *" $crate "*) done="$done $crate" ;;
        esac
    done
    # shellcheck disable=SC2086
    lines_done=$(lines_of $done)
    [ "$lines_done" -eq 0 ] || echo "; by what is proved so far about $(((lines - lines_done) * gone / lines_done + 1)) are left"
}

# builds the program of the current folder, by a run on the words that lie next to its sources; files that they name are in data
run_once() {
    set --
    if [ -f args ]; then
        while IFS= read -r word || [ -n "$word" ]; do
            [ ! -e "data/$word" ] || word=data/$word
            set -- "$@" "$word"
        done < args
    fi
    rt run -- "$@"
}

# --- without proof ---

# If the program is that is compiled of the sources as they are, which stops at what a proof would exclude: nothing is proved. It
# lies in a folder of its own, under a name that has the numbers of its sources and of the kit, and has no mark: no command takes it
# for a proved one. Without a kit it is that of these sources.
find_compiled() {
    compiled=$root/out/unproved
    program=$compiled/$program_crate-$(printf '%s' "$now_sources" | tr ' ' -)-$(printf '%s\n' "$now_kit" | cksum | tr ' ' -)
    [ -z "$now_kit" ] || return 0
    for other in "$compiled/$program_crate-$(printf '%s' "$now_sources" | tr ' ' -)"-*; do
        program=$other
    done
}

is_compiled() {
    [ -x "$program" ]
}

# Compiles it. rt try keeps no program: this copies the one that it has made while it runs, held at the opening of a pipe.
compile() {
    need_kit
    mkdir -p -- "$compiled" 2> /dev/null && room=$(mktemp -d -- "$compiled/making.XXXXXX" 2> /dev/null) ||
        fail "$not_writable" "the program is not built, and $compiled cannot be written"
    say "compiling $program_crate without proof: about two minutes"
    held=$room/held
    mkfifo -- "$held"
    trying= reporting=
    trap 'stop_compiling 129' HUP
    trap 'stop_compiling 130' INT
    trap 'stop_compiling 143' TERM
    try_held > "$room/log" 2>&1 < /dev/null &
    trying=$!
    report_seconds &
    reporting=$!
    # waits until the program opens the pipe, or rt has ended
    exec 5> "$held"
    kill "$reporting" 2> /dev/null || true
    made=$(find "$room" -type f -name program -perm -100)
    copying=0
    [ -z "$made" ] || cp -- "$made" "$room/copied" || copying=$?
    kill "$trying" 2> /dev/null || true
    wait "$trying" || true
    exec 5>&-
    trap - HUP INT TERM
    # on a full disk the log cannot say what went wrong
    [ "$copying" -eq 0 ] && (echo > "$room/tried") 2> /dev/null || {
        rm -rf -- "$room"
        fail "$not_writable" "the program is not built, and $compiled cannot be written"
    }
    [ -x "$room/copied" ] || {
        cat -- "$room/log" >&2
        fail "$not_built" "$program_crate was refused, and is not compiled; the log is $room/log"
    }
    rm -f -- "$compiled/$program_crate"-*
    mv -f -- "$room/copied" "$program"
    rm -rf -- "$room"
}

# reports every ten seconds how long a compilation has taken; nobody waits for its sleep
report_seconds() {
    seconds=0
    while sleep 10 > /dev/null 2>&1 < /dev/null; do
        seconds=$((seconds + 10))
        say "compiling $program_crate: $seconds seconds"
    done
}

# runs the program by rt try on words that make it open the pipe, and lets go of who waits at the pipe
try_held() {
    rt_running=
    trap 'kill "$rt_running" 2> /dev/null' TERM
    (unset CDPATH && cd -- "$folder" && TMPDIR=$room exec rt try --steps 1 --seconds 600 -- vm370 "$held" "$held") &
    rt_running=$!
    wait "$rt_running" || true
    : <> "$held"
}

# stop_compiling STATUS: ends what is under way
stop_compiling() {
    [ -z "$trying" ] || kill "$trying" 2> /dev/null || true
    [ -z "$reporting" ] || kill "$reporting" 2> /dev/null || true
    rm -rf -- "$room"
    exit "$1"
}
