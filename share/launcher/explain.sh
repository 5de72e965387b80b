# Runs the program and explains what it refuses, after its own line. The launcher sources this with
# - program and parts: the program, and the directory of this file;
# - the program's arguments.
# It ends with the program's status, or by the signal that ended the program. Of a run with --watch
# only a script is explained, since its lines have to come while it runs.
# shellcheck shell=sh disable=SC2034,SC2154 # the launcher sets these two; refused.sh has `script`

newline='
'
signals="HUP INT QUIT PIPE ALRM TERM USR1 USR2"

# free_descriptor FROM: the next number that is no open file. Without one the program is run alone.
free_descriptor() {
    descriptor=$1
    while [ -e "/dev/fd/$descriptor" ]; do
        descriptor=$((descriptor + 1))
    done
    [ "$descriptor" -le 9 ]
}

# Makes a pipe: its end for reading becomes the standard input, its other end the descriptor
# `output`. A shell that gives a short text by a pipe gives one without another program.
make_pipe() {
    exec <<end
.
end
    if [ -p /dev/stdin ]; then
        eval "exec $output<>/dev/stdin"
        read -r line
        return
    fi
    pipe=${TMPDIR:-/tmp}/symple.$$
    mkfifo -m 600 "$pipe" 2>/dev/null || return
    eval "exec $output<>\"\$pipe\""
    exec <"$pipe"
    rm -f "$pipe"
}

# Starts the program, with a pipe to the launcher's standard input as its standard error. The
# launcher's own standard input is kept as the descriptor `input`. Where that can't be done, the
# program is run alone. A shell gives what it starts beside itself no standard input, so it is given
# here.
start() {
    free_descriptor 3 || exec "$program" "$@"
    input=$descriptor
    free_descriptor $((input + 1)) || exec "$program" "$@"
    output=$descriptor
    eval "exec $input<&0"
    make_pipe || eval 'exec "$program" "$@" <&'"$input $input<&-"
    for signal in $signals; do
        # shellcheck disable=SC2064 # the name is that of now
        trap "caught=$signal; pass_on" "$signal"
    done
    eval '"$program" "$@" <&'"$input $input<&- 2>&$output $output>&- &"
    child=$!
    eval "exec $output>&-"
    [ -z "$caught" ] || pass_on
}

# Passes the signal on that was caught. What a shell starts beside itself ignores INT and QUIT.
pass_on() {
    fresh=1
    case $caught in
        INT | QUIT) kill -s TERM "$child" ;;
        *) kill -s "$caught" "$child" ;;
    esac 2>/dev/null
}

# Writes the lines of the program on standard error as they come, and keeps them in `said`.
relay() {
    while IFS= read -r line; do
        printf '%s\n' "$line" >&2
        said=$said$line$newline
    done
    printf '%s' "$line" >&2
    said=$said$line
}

# Waits until the program has ended. A signal that is caught ends no read and no wait for good.
finish() {
    fresh=1
    while [ -n "$fresh" ]; do
        fresh=
        relay
    done
    fresh=1
    while [ -n "$fresh" ]; do
        fresh=
        # Else some shells name the signal here.
        wait "$child" 2>/dev/null
        ended=$?
        # It has ended already where a signal came between the two.
        [ "$ended" -eq 127 ] || status=$ended
    done
    # shellcheck disable=SC2086 # the names are words
    trap - $signals
    if [ "$status" -gt 128 ]; then
        signal=${caught:-$(kill -l "$status")}
        # shellcheck disable=SC3045 # else the shell leaves a core file
        ulimit -c 0 2>/dev/null
        kill -s "$signal" $$
        # A shell that ignores the signal ends with the number that it stands for.
        case $signal in
            INT) status=130 ;;
            QUIT) status=131 ;;
        esac
    fi
}

for word do
    case $word in
        --watch)
            # shellcheck source=/dev/null # share/launcher/refused.sh, which is checked by itself
            . "$parts/refused.sh"
            look is_refused "$@" || exec "$program" "$@"
            break
            ;;
        --) break ;;
    esac
done
caught=
child=
said=
script=
start "$@"
# Bytes are passed on as they are, and counted one by one.
LC_ALL=C
export LC_ALL
finish
if [ "$status" -ge 2 ]; then
    # Whatever comes now, the status is the program's.
    trap 'exit "$status"' HUP INT QUIT TERM
    # shellcheck source=/dev/null # share/launcher/refused.sh, which is checked by itself
    . "$parts/refused.sh"
    explain_status "$@"
fi
exit "$status"
