# Explains what the program has refused. share/launcher/explain.sh sources this with
# - program, parts and input: the program, the directory of this file, and the descriptor of the
#   launcher's standard input;
# - status and said: the program's status, and what it wrote on standard error.
# shellcheck shell=sh disable=SC2154,SC2317 # explain.sh sets these; `look` calls functions

# look WITH ARGUMENT..: calls WITH with the script, and then with each file, until it succeeds. The
# number of names so far, of which the command is the first, is `names`.
look() {
    with=$1
    shift
    names=0
    option=
    after=
    for word do
        if [ -n "$option" ]; then
            option=
            continue
        elif [ -z "$after" ]; then
            case $word in
                --) after=1 && continue ;;
                --print | --watch | --*=*) continue ;;
                --*) option=1 && continue ;;
            esac
        fi
        names=$((names + 1))
        [ "$names" -eq 1 ] || ! "$with" "$word" || return 0
    done
    return 1
}

# Whether this is a script that is refused: then a run of it ends before it reads a log.
is_refused() {
    [ "$names" -eq 2 ] && [ -f "$1" ] || return 1
    "$program" check -- "$1" >/dev/null 2>&1
    [ $? -eq 3 ]
}

# explain TEXT
explain() {
    echo "    $1" >&2
}

# Sets `place` to what a file of this name is opened by, or to nothing where it can't be read again.
find_place() {
    case $1 in
        /dev/stdin) place=/proc/self/fd/$input ;;
        /*) place=$1 ;;
        *) place=./$1 ;;
    esac
    [ -f "$place" ] || place=
}

# Shows where the script is refused.
show_script() {
    find_place "$1"
    SAID=$said NAME=$1 PLACE=$place awk -f "$parts/script.awk" >&2
}

# Shows the header or the record that is refused.
show_input() {
    find_place /dev/stdin
    again=$place
    is_files=1
    ! look is_lost "$@" || is_files=
    SAID=$said SCRIPT=$script INPUT=$again IS_FILES=$is_files \
        awk -f "$parts/csv.awk" -f "$parts/input.awk" -- "$@" >&2
}

# Whether a log can't be read again. Sets what the script is read by.
is_lost() {
    find_place "$1"
    if [ "$names" -eq 2 ]; then
        script=$place
        return 1
    fi
    [ -z "$place" ]
}

# Says why there is no file of this name.
say_absent() {
    case $1 in
        */*) folder=${1%/*}/ ;;
        *) folder=. ;;
    esac
    if [ ! -d "$folder" ]; then
        explain "There is no such directory."
    elif [ ! -x "$folder" ]; then
        explain "This user may not look into its directory."
    else
        explain "There is no such file."
    fi
}

# Says why a file can't be read, if it is this one.
say_unread() {
    [ "$said" = "symple: $1: read fault$newline" ] || return 1
    if [ "$1" = - ] && [ ! -e ./- ]; then
        explain "- is the name of a file; standard input is /dev/stdin."
    elif [ -d "$1" ]; then
        explain "It is a directory."
    elif [ -L "$1" ] && [ ! -e "$1" ]; then
        explain "It is a link to a file that isn't there."
    elif [ ! -e "$1" ]; then
        say_absent "$1"
    elif [ ! -r "$1" ]; then
        explain "This user may not read it."
    else
        explain "It is there, but reading it failed."
    fi
}

# Says how large a file may be, if it is this one.
say_large() {
    [ "$said" = "symple: $1: too large$newline" ] || return 1
    find_place "$1"
    if [ -n "$place" ]; then
        explain "It has $(wc -c <"$place") bytes."
    fi
    if [ "$names" -eq 2 ]; then
        explain "A script has at most 65536 bytes."
    else
        explain "A file has at most as many bytes as --max-bytes says, 67108864 without it."
        explain "--max-bytes 268435456 is the most; split a larger log into several files."
    fi
}

# Explains what the program has refused.
explain_status() {
    case $status in
        2)
            if [ $# -eq 0 ]; then
                cat "$parts/usage.txt" >&2
            else
                explain "symple --help shows the commands and their options."
            fi
            ;;
        3) look show_script "$@" ;;
        4) show_input "$@" ;;
        5) look say_unread "$@" ;;
        7) look say_large "$@" ;;
    esac
}
