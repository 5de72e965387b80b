# Completion of symple's command line in bash. It needs no other package.

# The options of a command.
_symple_options() {
    case $1 in
        run) echo --form --chunk --limit --workers --max-bytes --watch ;;
        trace) echo --form --every --chunk --limit --workers --max-bytes ;;
        map) echo --first --chunk --limit --workers --max-bytes ;;
        reduce) echo --form --max-bytes ;;
        join) echo --limit --max-bytes ;;
        check) echo --print ;;
        make) echo --chunk --limit --workers ;;
    esac
}

# The files, and the directories on the way to them, that begin with a text: those whose name ends
# in $2, or all of them where there is no such file.
_symple_files() {
    local IFS=$'\n'
    compopt -o filenames
    mapfile -t COMPREPLY < <(compgen -f -X "!*$2" -- "$1"; compgen -d -- "$1")
    [ "${#COMPREPLY[@]}" -gt 0 ] || mapfile -t COMPREPLY < <(compgen -f -- "$1")
}

_symple() {
    local current=${COMP_WORDS[COMP_CWORD]} command=${COMP_WORDS[1]}
    COMPREPLY=()
    if [ "$COMP_CWORD" -eq 1 ] && [[ $current == -* ]]; then
        mapfile -t COMPREPLY < <(compgen -W "--help --version" -- "$current")
        return
    elif [ "$COMP_CWORD" -eq 1 ]; then
        mapfile -t COMPREPLY < <(compgen -W "run trace map reduce join check make" -- "$current")
        return
    fi

    # What stands before the word: the option whose value it is, the options that are given, and how
    # many arguments are none. `--form=csv` comes as three words.
    local place word option='' given=' ' ended=0 others=0
    for ((place = 2; place < COMP_CWORD; place++)); do
        word=${COMP_WORDS[place]}
        if [ "$word" = = ] && [ -n "$option" ]; then
            continue
        elif [ -n "$option" ]; then
            option=''
        elif [ "$ended" -eq 1 ]; then
            others=$((others + 1))
        else
            case $word in
                --) ended=1 ;;
                --print | --watch) given="$given$word " ;;
                --?*) option=$word given="$given$word " ;;
                *) others=$((others + 1)) ;;
            esac
        fi
    done
    [ "$current" != = ] || current=''

    if [ "$option" = --form ]; then
        mapfile -t COMPREPLY < <(compgen -W "table csv pairs" -- "$current")
    elif [ -n "$option" ]; then
        return
    elif [ "$ended" -eq 0 ] && [[ $current == -?* || $current == - ]]; then
        local left=()
        for word in $(_symple_options "$command"); do
            [[ $given == *" $word "* ]] || left+=("$word")
        done
        mapfile -t COMPREPLY < <(compgen -W "${left[*]}" -- "$current")
    elif [[ $command == @(run|trace|map|reduce|join|check) ]] && [ "$others" -eq 0 ]; then
        _symple_files "$current" .symple
    elif [[ $command == @(run|trace|map|reduce|join) ]]; then
        _symple_files "$current" ''
    fi
}

complete -F _symple symple
