# What bin/install and bin/package share: which files an installation has, and where. Sourced after bin/lib/building.sh.

version_number=$(cat -- "$root/VERSION")

# Builds the program, and says in $proof whether it is proved.
build_to_place() {
    [ ! -d "$root/programs" ] || fail "$file_failed" "this is an installation; install from a checkout"
    make_program
    proof=$(state_of_program)
}

# the folders below a prefix that others share, a folder after those in it
shared_folders="share/bash-completion/completions share/bash-completion share/man/man1 share/man share/doc share lib bin"

# place_in PREFIX [SHOWN]: copies everything to where it belongs; pages name it by SHOWN, if PREFIX is not where it is used
place_in() {
    shown=${2-$1}
    place=$1/lib/gathjumli
    share=$1/share
    made=
    for folder in $shared_folders; do
        [ -d "$1/$folder" ] || made="$made $folder"
    done
    mkdir -p -- "$place/bin" "$place/programs" "$1/bin" "$share/man/man1" "$share/doc/gathjumli/docs" \
        "$share/bash-completion/completions" || return 1
    echo "$made" > "$place/folders" && place_program && place_commands "$1" && place_examples "$1" && place_pages && place_completion "$1"
}

# the program, with what it is made of
place_program() {
    cp -- "$program" "$place/programs/$program_crate" && chmod 755 "$place/programs/$program_crate" &&
        describe_program > "$place/programs/$program_crate.built"
}

# the commands, of which only one is where the shell finds it
place_commands() {
    cp -- "$root/VERSION" "$place/" && cp -R -- "$root/bin/lib" "$place/bin/" && rm -rf -- "$place/bin/lib/__pycache__" "$place/bin/lib/gathjumli/__pycache__" &&
        cp -R -- "$root/web" "$place/" || return 1
    for command in $(installed_commands); do
        cp -- "$root/bin/$command" "$place/bin/" || return 1
    done
    ln -sf ../lib/gathjumli/bin/gathjumli "$1/bin/gathjumli"
}

place_examples() {
    cp -R -- "$root/examples" "$place/"
}

# the documents and the man pages, with names as they are installed
place_pages() {
    cp -- "$root/CHANGELOG.md" "$root/CONTRIBUTING.md" "$share/doc/gathjumli/" &&
        cp -- "$root/docs/replay.png" "$share/doc/gathjumli/docs/" || return 1
    for page in README.md docs/installation.service $(cd -- "$root" && ls docs/*.md); do
        sed -E "$(command_names)" "$root/$page" > "$share/doc/gathjumli/$page" || return 1
    done
    names=$(page_names && installed_names "$shown")
    for command in $(installed_commands); do
        sed -E -e "1s/.*/.TH $(page "$command" | tr a-z A-Z) 1 \"\" \"Gathjumli $version_number\"/" -e "3s/^$command /$(page "$command") /" \
            -e "$names" "$root/docs/man/$command.1" > "$share/man/man1/$(page "$command").1" || return 1
    done
}

# what sed does to a man page so that it names others as they are installed
page_names() {
    for command in $(installed_commands); do
        printf '%s\n' "s,(^|[^a-z0-9-])$command[(]1[)],\\1$(page "$command")(1),g"
    done
}

# what bash completes: commands, the options of each as its usage text names them, examples, and files
place_completion() {
    cat > "$share/bash-completion/completions/gathjumli" <<END
# completes the commands of Gathjumli, their options, and files
_gathjumli() {
    local word=\${COMP_WORDS[COMP_CWORD]}
    COMPREPLY=()
    if [ "\$COMP_CWORD" -eq 1 ]; then
        mapfile -t COMPREPLY < <(compgen -W "$(subcommands)" -- "\$word")
        return
    fi
    case \$word in
    -*) mapfile -t COMPREPLY < <(compgen -W "\$("\$1" "\${COMP_WORDS[1]}" --help 2> /dev/null | grep -oE -- '--[a-z][a-z-]*' | sort -u)" -- "\$word") ;;
    *) [ "\${COMP_WORDS[1]}" != example ] || mapfile -t COMPREPLY < <(compgen -W "\$("\$1" example 2> /dev/null | sed -n 's/^    //p')" -- "\$word") ;;
    esac
}
complete -o default -F _gathjumli gathjumli
END
}

# the words that follow gathjumli
subcommands() {
    printf 'example'
    for command in $(installed_commands); do
        [ "$command" = gathjumli ] || printf ' %s' "$(subcommand "$command")"
    done
}

# remove_from PREFIX: takes away what place_in has put there, and the folders that it made, once they are empty
remove_from() {
    made=$(cat -- "$1/lib/gathjumli/folders" 2> /dev/null) || made=
    for link in "$1"/bin/* "$1"/share/bash-completion/completions/*; do
        case $(readlink -- "$link" 2> /dev/null) in
        ../lib/gathjumli/*)
            rm -f -- "$link" "$1/share/man/man1/${link##*/}.1"
            ;;
        gathjumli) rm -f -- "$link" ;;
        esac
    done
    rm -f -- "$1"/share/man/man1/gathjumli-*.1
    rm -rf -- "$1/lib/gathjumli" "$1/share/doc/gathjumli" "$1/share/bash-completion/completions/gathjumli"
    for folder in $made; do
        rmdir -- "$1/$folder" 2> /dev/null || true
    done
}
