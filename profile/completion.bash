# Completion of profile in bash. Subcommands and options are those that its help has, numbers those that explain lists; file names are bash's own.

# The subcommands of a program.
_profile_subcommands() {
    "$1" --help 2>/dev/null | sed -n 's/^  profile \([a-z]*\) .*/\1/p'
}

# The options of a subcommand of a program.
_profile_options() {
    "$1" help "$2" 2>/dev/null | sed -n 's/^  \(\(-[a-z], \)\{0,1\}--[a-z-]*\) .*/\1/p' | tr -d ,
}

# Offers what may stand at the cursor, in the program of the line; where nothing is offered bash offers files.
_profile() {
    local program=${1/#\~/$HOME} word=$2 before=$3 place=$COMP_CWORD k
    COMPREPLY=()
    if [ "$place" = 1 ]; then
        mapfile -t COMPREPLY < <(compgen -W "$(_profile_subcommands "$program") -h --help -V --version" -- "$word")
        return
    fi
    for ((k = 2; k < place; k++)); do
        [ "${COMP_WORDS[k]}" != -- ] || return 0
    done
    case $before in
    -o | --output | --session | --words | --script | --frames | =) return 0 ;;
    esac
    if [ "${word#-}" != "$word" ]; then
        mapfile -t COMPREPLY < <(compgen -W "$(_profile_options "$program" "${COMP_WORDS[1]}")" -- "$word")
    elif [ "$place" = 2 ] && [ "${COMP_WORDS[1]}" = help ]; then
        mapfile -t COMPREPLY < <(compgen -W "$(_profile_subcommands "$program")" -- "$word")
    elif [ "$place" = 2 ] && [ "${COMP_WORDS[1]}" = explain ]; then
        mapfile -t COMPREPLY < <(compgen -W "$("$program" explain 2>/dev/null | sed 's/^ *\([0-9]*\) .*/\1/')" -- "$word")
    fi
}

complete -o default -F _profile profile
