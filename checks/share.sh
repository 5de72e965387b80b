#!/bin/sh
# Whether what stands beside the program speaks of this program: the manual page, the completions
# and the highlighting of share, and install.sh.
# - The commands, options, forms and ranges that they name are those that the program takes.
# - The keywords, the functions of a report, the statuses and the messages are those of the sources.
# - Each file is read by its own tool: mandoc, bash, zsh, fish, vim. What isn't installed is named,
#   and what it would try is left out.
# The last line counts what passed and failed.
set -u

# shellcheck source=checks/common.sh
. "$(dirname "$0")/common.sh"
cd "$root" || exit 1

manual=share/man/symple.1
bash_words=share/completions/symple.bash
zsh_words=share/completions/_symple
fish_words=share/completions/symple.fish
vim_words=share/vim/syntax/symple.vim
usage=share/launcher/usage.txt
grammar=share/textmate/symple.tmLanguage.json
script=examples/counter.symple
log=examples/counter.csv

# Whether a tool is there; one that isn't is told.
has() {
    command -v "$1" >/dev/null && return
    echo "checks/share.sh: no $1: $2 isn't tried" >&2
    return 1
}

# same NAME WANTED FOUND: two files with the same lines, in any order.
same() {
    sort -u "$2" >"$work/wanted"
    sort -u "$3" >"$work/found"
    if ! diff "$work/wanted" "$work/found" >"$work/difference"; then
        cat "$work/difference" >&2
        note 1 "$1"
    else
        note 0
    fi
}

# The program's status for these arguments.
status_of() {
    ./symple "$@" >/dev/null 2>&1 </dev/null
    echo $?
}

# The commands, options and forms of each file, one a line: `run`, `run --chunk`, `--form csv`.

manual_words() {
    awk '
        /^\.Sh / { heading = $2 }
        heading == "SYNOPSIS" && /^\.Cm / { command = $2; print command }
        heading == "SYNOPSIS" && /^\.Op Fl -/ { print command " -" $3 }
        heading == "DESCRIPTION" && /^\.It Fl -form/ { inside = 1; next }
        /^\.It / { inside = 0 }
        inside && /^\.Cm / { print "--form " $2 }
    ' "$manual"
}

fish_file_words() {
    awk '
        /-n __symple_command -a/ {
            for (i = 1; i <= NF; i++)
                if ($i == "-a")
                    print $(i + 1)
        }
        /-n \$is_[a-z]+ -l / {
            match($0, /is_[a-z]+ -l [a-z-]+/)
            count = split(substr($0, RSTART + 3, RLENGTH - 3), words, " ")
            print words[1] " --" words[count]
        }
        /-l form / {
            match($0, /-a \047[a-z ]*\047/)
            count = split(substr($0, RSTART + 4, RLENGTH - 5), forms, " ")
            for (i = 1; i <= count; i++)
                print "--form " forms[i]
        }
    ' "$fish_words"
}

bash_file_words() {
    awk '
        /^ +[a-z]+\) echo --/ {
            command = $1
            sub(/\)/, "", command)
            for (i = 3; i < NF; i++)
                print command " " $i
        }
        match($0, /compgen -W "[a-z ]+"/) {
            count = split(substr($0, RSTART + 12, RLENGTH - 13), words, " ")
            for (i = 1; i <= count; i++)
                print (/"\$current"/ && words[1] == "run" ? "" : "--form ") words[i]
        }
    ' "$bash_words"
}

zsh_file_words() {
    awk '
        /^ +\047[a-z]+:/ { match($0, /[a-z]+:/); print substr($0, RSTART, RLENGTH - 1) }
        /^    path_options=/ { shared = 1 }
        shared && match($0, /--[a-z-]+/) { options[++many] = substr($0, RSTART, RLENGTH); next }
        /^    \)/ { shared = 0 }
        /^ +[a-z]+\)$/ { command = $1; sub(/\)/, "", command) }
        /_arguments -S \$path_options/ {
            for (i = 1; i <= many; i++)
                print command " " options[i]
        }
        match($0, /\047--[a-z-]+/) { print command " " substr($0, RSTART + 1, RLENGTH - 1) }
        match($0, /:form:\([a-z ]+\)/) {
            count = split(substr($0, RSTART + 7, RLENGTH - 8), forms, " ")
            for (i = 1; i <= count; i++)
                print "--form " forms[i]
        }
    ' "$zsh_words"
}

# In the help an option is for the commands that it names, or for all that have records or a FILE.
usage_words() {
    awk '
        /^    symple [a-z]+ / && $2 != "help," {
            commands[++many] = $2
            print $2
            if (/\[--print\]/)
                print $2 " --print"
        }
        /^    --[a-z]/ {
            for (i = 1; i <= many; i++) {
                has_file = commands[i] !~ /^(check|make)$/
                has_records = commands[i] !~ /^(check|reduce|join)$/
                if ((/all with FILE/ && has_file) || (/all with records/ && has_records) || \
                    $0 ~ ("[ ,]" commands[i] "(,| |$)"))
                    print commands[i], $1
            }
        }
    ' "$usage"
    grep -E '^    --form ' "$usage" | grep -oE 'table|csv|pairs' | sort -u | sed 's/^/--form /'
}

# Whether a command takes an option; the arguments beside it are right.
takes() {
    case $1 in
        run | trace | map | reduce | join) set -- "$1" "$2" "${3-}" "$script" "$log" ;;
        check) set -- check "$2" "${3-}" "$script" ;;
        make) set -- make "$2" "${3-}" 1 1 ;;
    esac
    if [ -z "$3" ]; then
        command=$1
        option=$2
        shift 3
        set -- "$command" "$option" "$@"
    fi
    [ "$(status_of "$@")" != 2 ]
}

# Each documented word is one of the program, and each name of an argument that is an option of a
# command is documented.
try_words() {
    manual_words >"$work/manual"
    bash_file_words >"$work/bash"
    zsh_file_words >"$work/zsh"
    fish_file_words >"$work/fish"
    [ -s "$work/manual" ]
    note $? "$manual: no command"
    same "$bash_words: other words than the manual page" "$work/manual" "$work/bash"
    same "$zsh_words: other words than the manual page" "$work/manual" "$work/zsh"
    same "$fish_words: other words than the manual page" "$work/manual" "$work/fish"
    usage_words >"$work/usage"
    same "$usage: other words than the manual page" "$work/manual" "$work/usage"

    for command in run trace map reduce join check make; do
        grep -qx "$command" "$work/manual"
        note $? "$manual: no $command"
    done
    [ "$(status_of other "$script" "$log")" = 2 ]
    note $? "the program takes a command that isn't one"
    sed -n 's/^--form //p' "$work/manual" | sort -u >"$work/forms"
    while read -r form; do
        takes run --form "$form"
        note $? "the program has no form $form"
    done <"$work/forms"
    grep -o '[A-Z][a-z]*Form::new' crates/symple/src/main.rt | sort -u >"$work/made"
    [ "$(wc -l <"$work/forms")" -eq "$(wc -l <"$work/made")" ]
    note $? "the program has other forms than $manual"

    sed -n 's/.*_NAME: &str = "\(.*\)";/\1/p' crates/sym_command/src/arguments.rt >"$work/names"
    [ -s "$work/names" ]
    note $? "crates/sym_command/src/arguments.rt: no name of an argument"
    for command in run trace map reduce join check make; do
        : >"$work/taken"
        { sed -n 's/^[a-z]* --//p' "$work/manual"; cat "$work/names"; } | sort -u >"$work/tried"
        while read -r name; do
            case $name in
                form) value=table ;;
                print | watch) value='' ;;
                *) value=1 ;;
            esac
            ! takes "$command" "--$name" "$value" || echo "$command --$name" >>"$work/taken"
        done <"$work/tried"
        grep "^$command --" "$work/manual" >"$work/said"
        same "$manual: other options of $command than the program" "$work/taken" "$work/said"
    done
}

# The number of a constant of the sources, or the default of an option that they have.
number_of() {
    sed -n "/^pub const $1: NumberOption/,/default/s/^ *default: \([0-9_]*\),\$/\1/p" \
        crates/sym_command/src/arguments.rt
    sed -n "s/^pub const $1: [a-z0-9]* = \([0-9_]*\);\$/\1/p" crates/sym_base/src/limits.rt \
        crates/sym_files/src/*.rt | tr -d _
}

# The range of a number, as the manual page has it, is just what the program takes, and the default
# is that of the sources.
try_ranges() {
    awk '
        /^\.It Fl -/ { option = "-" $3 }
        option != "" && /^From [0-9]+ to [0-9]+; the default is [0-9]+\.$/ {
            sub(/;$/, "", $4)
            sub(/\.$/, "", $NF)
            print option, $2, $4, $NF
        }
    ' "$manual" >"$work/ranges"
    [ "$(wc -l <"$work/ranges")" -eq 6 ]
    note $? "$manual: not six ranges"
    while read -r option least most default; do
        sed -n "s/^\([a-z]*\) $option\$/\1/p" "$work/manual" | grep -v make >"$work/commands"
        while read -r command; do
            for number in "$least" "$most"; do
                takes "$command" "$option" "$number"
                note $? "$command $option $number: refused, but in the range of $manual"
            done
            for number in $((least - 1)) $((most + 1)); do
                ! takes "$command" "$option" "$number"
                note $? "$command $option $number: taken, but outside of the range of $manual"
            done
        done <"$work/commands"
        for words in "$zsh_words" "$fish_words"; do
            grep -qF -- "$least to $most" "$words"
            note $? "$words: no range $least to $most"
        done
        case $option in
            --every) name=EVERY ;;
            --first) name=FIRSTS ;;
            --chunk) name=CHUNK_DEFAULT ;;
            --limit) name=LIMIT_DEFAULT ;;
            --workers) name=WORKERS_DEFAULT ;;
            --max-bytes) name=FILE_MAX_DEFAULT ;;
        esac
        [ "$(number_of "$name")" = "$default" ]
        note $? "$manual: another default of $option than $name"
        grep -q "^    $option .*($default)\$" "$usage"
        note $? "$usage: another default of $option than $default"
    done <"$work/ranges"
}

# The keywords and the functions of the sources are those that are highlighted.
try_highlighting() {
    sed -n 's/^ *Keyword::[A-Za-z]* => "\([a-z]*\)",$/\1/p' crates/sym_lex/src/keyword.rt \
        >"$work/keywords"
    sed -n 's/^ *"\([a-z]*\)" => Some(ShowFn::.*/\1/p; s/^ *name == "\(part\)"$/\1/p' \
        crates/sym_check/src/elaborate/shown.rt >"$work/functions"
    [ -s "$work/keywords" ] && [ "$(wc -l <"$work/functions")" -eq 7 ]
    note $? "no keywords, or not seven functions, in the sources"

    {
        sed -n '/sympleTodo/d; s/^syntax keyword [A-Za-z]* //p' "$vim_words" | tr ' ' '\n'
        sed -n 's/.*start=.\\<\([a-z]*\)\\>.*/\1/p' "$vim_words"
    } >"$work/vim"
    sed -n 's/^syntax match sympleFunction .*%(\(.*\)\\).*/\1/p' "$vim_words" |
        sed 's/\\|/\n/g' >"$work/vim_functions"
    same "$vim_words: other keywords" "$work/keywords" "$work/vim"
    same "$vim_words: other functions" "$work/functions" "$work/vim_functions"

    {
        grep -o '"match": "\\\\b(?:[a-z|]*)\\\\b"' "$grammar" | grep -o '[a-z|]*)' |
            tr -d ')' | tr '|' '\n'
        sed -n 's/.*"begin": "\\\\b\([a-z]*\)\\\\b".*/\1/p' "$grammar"
    } >"$work/grammar"
    grep -o '\\\\b(?:[a-z|]*)\\\\b(?=' "$grammar" | grep -o '[a-z|]*)' | tr -d ')' |
        tr '|' '\n' >"$work/grammar_functions"
    same "$grammar: other keywords" "$work/keywords" "$work/grammar"
    same "$grammar: other functions" "$work/functions" "$work/grammar_functions"
}

# The statuses with their numbers, and the messages on a script.
try_manual() {
    sed -n 's/^ *Status::\([A-Za-z]*\) => \([0-9]*\),$/\2 \1/p' crates/sym_message/src/status.rt \
        >"$work/statuses"
    awk '/^\.It [0-9]+$/ { number = $2; getline; sub(/:.*/, ""); print number, $0 }' "$manual" \
        >"$work/said"
    [ -s "$work/statuses" ]
    note $? "no status in the sources"
    same "$manual: other statuses" "$work/statuses" "$work/said"

    sed -n 's/^ *ScriptFault::[A-Za-z]* => "\([a-z ]*\)",$/\1/p' crates/sym_message/src/message.rt \
        >"$work/faults"
    [ -s "$work/faults" ]
    note $? "no message in the sources"
    awk '/^\.Ql / { sub(/^\.Ql /, ""); sub(/ [,.]$/, ""); print }' "$manual" >"$work/said"
    while read -r fault; do
        grep -qxF "$fault" "$work/said"
        note $? "$manual: no message: $fault"
    done <"$work/faults"
}

# The groups that vim highlights a script in, one a line.
groups_of() {
    cat >"$work/groups.vim" <<'end'
let groups = {}
for line in range(1, line('$'))
    for column in range(1, len(getline(line)))
        let groups[synIDattr(synID(line, column, 1), 'name')] = 1
    endfor
endfor
call writefile(keys(groups), $GROUPS)
qall!
end
    rm -f "$work/groups"
    GROUPS=$work/groups vim -Nu NONE -es --cmd 'set runtimepath^=share/vim | filetype on | syntax on' \
        -S "$work/groups.vim" "$1" </dev/null >/dev/null 2>&1
    [ -e "$work/groups" ] || : >"$work/groups"
}

# Each file by its own tool.
try_tools() {
    if has mandoc "$manual"; then
        mandoc -Tlint "$manual" >&2
        note $? "$manual: mandoc finds a fault"
    fi
    if has bash "$bash_words"; then
        # shellcheck disable=SC2016 # bash expands it
        bash -c 'source "$1"; COMP_WORDS=(symple run --); COMP_CWORD=2; _symple
            printf "%s\n" "${COMPREPLY[@]}"' bash "$bash_words" >"$work/completed"
        grep '^run --' "$work/manual" | sed 's/^run //' >"$work/options"
        same "$bash_words: run -- isn't completed to the options" "$work/options" "$work/completed"
        # shellcheck disable=SC2016 # bash expands it
        completed=$(bash -c 'source "$1"; COMP_WORDS=(symple --v); COMP_CWORD=1; _symple
            echo "${COMPREPLY[@]}"' bash "$bash_words")
        [ "$completed" = --version ]
        note $? "$bash_words: --v is completed to $completed"
    fi
    if has zsh "$zsh_words"; then
        zsh -n "$zsh_words"
        note $? "$zsh_words: zsh finds a fault"
    fi
    if has fish "$fish_words"; then
        fish --no-config -c "source $fish_words; complete -C 'symple run --'" |
            cut -f 1 >"$work/completed"
        grep '^run --' "$work/manual" | sed 's/^run //' >"$work/options"
        same "$fish_words: run -- isn't completed to the options" "$work/options" "$work/completed"
    fi
    if has vim "$vim_words" && vim --version | grep -q '+syntax'; then
        for file in examples/*.symple; do
            groups_of "$file"
            grep -qx sympleDeclaration "$work/groups" && ! grep -q Error "$work/groups"
            note $? "$vim_words: $file isn't highlighted, or as if it had an error"
        done
    fi
    if has python3 "$grammar"; then
        python3 -m json.tool "$grammar" >/dev/null
        note $? "$grammar: not JSON"
    fi
}

# Each limit of the sources that a hint names, with the words for it, is the one of the sources.
try_hints() {
    hints=share/launcher/script.awk
    for words in ENUMS:enums LABELS:labels FIELDS:fields CELLS:cells TESTS:tests COLUMNS:columns \
        PARAMETERS:parameters PARTS:parts STATEMENTS:statements DEPTH:depth OPERANDS:operands; do
        number=$(sed -n "s/^pub const ${words%:*}_MAX: [a-z0-9]* = \([0-9_]*\);\$/\1/p" \
            crates/sym_base/src/limits.rt)
        grep -qE "limit\[\"${words#*:}\"\].* = (\"|)${number:-none}( |;|\"|\$)" "$hints"
        note $? "$hints: the limit of ${words#*:} isn't ${number:-named so in the sources}"
    done
    sed -n 's/^ *ScriptFault::[A-Za-z]* => "\([a-z ]*\)",$/\1/p' crates/sym_message/src/message.rt |
        while read -r fault; do
            grep -qF "what == \"$fault\"" "$hints" || echo "$fault"
        done >"$work/unhinted"
    [ ! -s "$work/unhinted" ]
    note $? "$hints: no hint for: $(cat "$work/unhinted")"
    sed -n 's/^ *Keyword::[A-Za-z]* => "\([a-z]*\)",$/\1/p' crates/sym_lex/src/keyword.rt \
        >"$work/keywords"
    sed -n '/words("enum field from/,/, keyword)/p' "$hints" | grep -o '"[a-z ]*"' | tr -d '"' |
        tr -s ' ' '\n' | grep . >"$work/hinted"
    same "$hints: other keywords" "$work/keywords" "$work/hinted"
}

# The program runs from where it was installed, and each file is there, until all are removed.
try_install() {
    ./install.sh "$work/a prefix" >"$work/installed"
    note $? "install.sh ended with another status than 0"
    while read -r file; do
        [ -s "$file" ]
        note $? "install.sh wrote no $file"
    done <"$work/installed"
    find "$work/a prefix" -type f >"$work/there"
    same "install.sh names other files than it writes" "$work/there" "$work/installed"
    "$work/a prefix/bin/symple" run "$script" "$log" >"$work/report"
    note $? "the installed program doesn't run"
    ./symple run "$script" "$log" >"$work/wanted.report"
    cmp -s "$work/wanted.report" "$work/report"
    note $? "the installed program writes another report"
    cmp -s "$program" "$work/a prefix/libexec/symple/symple"
    note $? "another program is installed than the one that runs"
    "$work/a prefix/bin/symple" --help | cmp -s - "$usage"
    note $? "the installed launcher shows no help"
    ./symple --version | grep -v '^path ' >"$work/wanted.version"
    "$work/a prefix/bin/symple" --version | grep -v '^path ' | cmp -s - "$work/wanted.version"
    note $? "the installed launcher says another version"
    SYMPLE_EXPLAIN=1 "$work/a prefix/bin/symple" check examples/reference/slip.symple \
        2>"$work/said" || grep -q ':5:21:' "$work/said"
    note $? "the installed launcher explains nothing"
    ln -s "$work/a prefix/bin/symple" "$work/linked"
    "$work/linked" run "$script" "$log" | cmp -s - "$work/wanted.report"
    note $? "the installed launcher doesn't run by a link"
    : >"$work/a prefix/bin/other"
    ./install.sh --uninstall "$work/a prefix" >"$work/removed"
    note $? "install.sh --uninstall ended with another status than 0"
    same "install.sh --uninstall removes other files" "$work/installed" "$work/removed"
    [ "$(find "$work/a prefix" ! -type d)" = "$work/a prefix/bin/other" ] &&
        [ ! -e "$work/a prefix/libexec/symple" ]
    note $? "install.sh --uninstall leaves a file, or takes one of another program"
    ./install.sh --uninstall "$work/a prefix" >"$work/removed" && [ ! -s "$work/removed" ]
    note $? "install.sh --uninstall isn't content where nothing is installed"
    ./install.sh >/dev/null 2>&1
    [ $? -eq 2 ]
    note $? "install.sh without a directory doesn't end with 2"
}

find_program

try_words
try_ranges
try_highlighting
try_manual
try_hints
try_tools
try_install

counted passed failed
