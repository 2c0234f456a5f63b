# What all commands share: sourced by each, as
#
#     . "$(dirname -- "$(readlink -f -- "$0")")/lib/common.sh"
#
# so that it is found through symbolic links and whatever CDPATH says. Nothing here changes the current folder.
# docs/COMMAND_LINE.md says the statuses; bin/lib/program.sh has what the commands share that build and run a program.

# the repository, or the folder of an installation by bin/install, which is laid out alike
root=$(dirname -- "$(dirname -- "$(readlink -f -- "$0")")")
# the command as it was typed, which is another one if bin/gathjumli runs this one; and what messages begin with
typed=${GATHJUMLI_TYPED:-$0}
unset GATHJUMLI_TYPED
name=${typed##*/}

# That of the programs for a file that failed, and those of the commands themselves, which no program of the repository has.
file_failed=3
not_built=70
no_kit=71
not_writable=72
no_python=73
refused_source=74
no_marker=75
not_copied=76
no_emulator=77
wrong_image=78
complained=79

say() {
    printf '%s: %s\n' "$name" "$*" >&2
}

# fails with a status and a text
fail() {
    status=$1
    shift
    say "$@"
    exit "$status"
}

# printing COMMAND..: runs a command that prints. If standard output fails that is reported, but for a reader who has gone.
printing() {
    { failure=$("$@" 2>&1 >&3 3>&-); } 3>&1 && return
    # what follows the last colon, or is in parentheses
    failure=$(printf '%s\n' "$failure" | sed -n '1s/.*[(:] *\([^():]*\))*$/\1/p')
    [ -z "$failure" ] || say "$failure"
    exit "$file_failed"
}

# the whole usage text
help() {
    printing installed_usage
    exit 0
}

# the usage text, in an installation with the names that things have there
installed_usage() {
    case $root in
    */lib/gathjumli) usage | as_installed ;;
    *) usage ;;
    esac
}

# the text of standard input with the names of this installation
as_installed() { sed -E "$(installed_names "${root%/lib/gathjumli}")"; }

# the commands that are installed, of a checkout or an installation: these need no sources
installed_commands() {
    for command in "$root"/bin/*; do
        [ -f "$command" ] || continue
        case " bench bench-against book build plant install package " in
        *" ${command##*/} "*) ;;
        *) echo "${command##*/}" ;;
        esac
    done
}

# subcommand NAME: what bin/gathjumli calls a command
subcommand() {
    awk -v "name=$1" '$2 == name { $0 = $1; found = 1; print; exit } END { if (!found) print name }' "$root/bin/lib/subcommands"
}

# page COMMAND: the name of its man page in an installation
page() {
    if [ "$1" = gathjumli ]; then
        echo gathjumli
    else
        echo "gathjumli-$(subcommand "$1")"
    fi
}

# command_names: what sed does to a text so that it names commands as an installation has them
command_names() {
    before='(^|[^/a-zA-Z])'
    printf '%s\n' 's,examples/run,gathjumli example,g' "s,${before}bin/gathjumli,\\1gathjumli,g"
    for command in $(installed_commands); do
        printf '%s\n' "s,docs/man/$command[.]1,man $(page "$command"),g"
        printf '%s\n' "s,${before}bin/$command([^a-z0-9-]|\$),\\1gathjumli $(subcommand "$command")\\2,g"
    done
}

# installed_names PREFIX: the same, also of what is installed below this folder
installed_names() {
    below=$(printf '%s' "$1" | sed 's/[&\\,]/\\&/g')
    command_names
    printf '%s\n' "s,${before}examples/(users|machines),\\1$below/lib/gathjumli/examples/\\2,g" \
        "s,${before}docs/,\\1$below/share/doc/gathjumli/docs/,g" "s,${before}bin/lib/,\\1$below/lib/gathjumli/bin/lib/,g"
}

# the version, and of a command that runs a part of the program ($runs) what the program is; cat says why a file fails
version() {
    described=$([ -z "${runs-}" ] || describe_program) || exit $?
    printing cat <<END
$name (Gathjumli) $(cat -- "$root/VERSION")${described:+
$described}
END
    exit 0
}

# refuses the words of the command: what is wrong, and the first lines of the usage text
usage_error() {
    say "$@"
    {
        installed_usage | sed '/^$/,$d'
        echo "$name --help says more"
    } >&2
    exit 2
}

# read_arguments OPTIONS WORD..: takes the words apart, as the programs do. OPTIONS names the options, with a colon where a value
# follows, as "frames: save"; their values come to option_frames and option_save, the other words to path1, path2 .., and how
# many these are to count.
read_arguments() {
    known=" $1 "
    shift
    count=0
    awaited=
    are_options=true
    for word in "$@"; do
        if [ -n "$awaited" ]; then
            set_option "$awaited" "$word"
            awaited=
            continue
        fi
        case $are_options$word in
        true--) are_options=false ;;
        true-h | true--help) help ;;
        true--version) version ;;
        true--?*=*)
            given=${word%%=*}
            case $known in
            *" ${given#--}: "*) set_option "${given#--}" "${word#*=}" ;;
            *" ${given#--} "*) usage_error "$given has no value: $word" ;;
            *) no_such_option "$given" ;;
            esac
            ;;
        true-?*)
            case $word:$known in
            --*:*" ${word#--}: "*) awaited=${word#--} ;;
            --*:*" ${word#--} "*) set_option "${word#--}" true ;;
            *) no_such_option "$word" ;;
            esac
            ;;
        *)
            count=$((count + 1))
            eval "path$count=\$word"
            ;;
        esac
    done
    [ -z "$awaited" ] || usage_error "no value follows --$awaited"
}

# no_such_option WORD: refuses it, and names the known option that was perhaps meant
no_such_option() {
    meant=$(awk -v "wrong=${1#--}" -v "known=$known" -f "$root/bin/lib/nearest.awk") || meant=
    usage_error "no such option: $1${meant:+; did you mean $meant?}"
}

# nearest_word WORD LIST..: prints which word of the lists was perhaps meant
nearest_word() {
    wrong=$1
    shift
    meant=$(awk -v "wrong=$wrong" -v "known=$(printf '%s\n' "$@" | paste -sd ' ' -)" -v words=1 -f "$root/bin/lib/nearest.awk") || meant=
    printf '%s' "${meant:+; did you mean $meant?}"
}

# set_option NAME VALUE: of an option that is known; --save-state is option_save_state
set_option() {
    case $1 in
    *-*) variable=option_$(printf '%s' "$1" | tr - _) ;;
    *) variable=option_$1 ;;
    esac
    eval "[ -z \"\${$variable+given}\" ]" || usage_error "--$1 is given twice"
    eval "$variable=\$2"
}

# need_paths NAME..: whether so many words are there next to the options; a last NAME [..] may be any number of them
need_paths() {
    wanted=0
    for path_name in "$@"; do
        [ "$path_name" != '[..]' ] || return 0
        wanted=$((wanted + 1))
        [ "$count" -ge "$wanted" ] || usage_error "$path_name is missing"
    done
    [ "$count" -le "$wanted" ] || {
        eval "surplus=\$path$((wanted + 1))"
        usage_error "one argument too many: $surplus"
    }
}

# read_standard_input NUMBER: from the path of this number on, - is standard input
read_standard_input() {
    place=$1
    while [ "$place" -le "$count" ]; do
        eval "[ \"\$path$place\" != - ] || path$place=/dev/stdin"
        place=$((place + 1))
    done
}

# check_number WHAT VALUE LOWEST HIGHEST [USEFUL]: whether a value is a number of 1 to 7 digits within these bounds; USEFUL is the lowest
# that is named, where a lower one is refused later
check_number() {
    case $2 in
    '' | *[!0-9]* | ????????*) usage_error "$1 is a number from ${5-$3} to $4, and not ${2:-empty}" ;;
    esac
    [ "$2" -ge "$3" ] && [ "$2" -le "$4" ] || usage_error "$1 is a number from ${5-$3} to $4, and not $2"
}
