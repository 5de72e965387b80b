# Completion of symple's command line in fish.

# Whether the command is the one named; without a name, whether there is none yet.
function __symple_command
    set -l words (commandline -opc)
    if test (count $argv) -eq 0
        test (count $words) -eq 1
    else
        test (count $words) -ge 2; and test $words[2] = $argv[1]
    end
end

# How many arguments of the command stand before the word, options and their values aside.
function __symple_place
    set -l valued --form --every --first --chunk --limit --workers --max-bytes
    set -l place 0
    set -l is_value 0
    set -l ended 0
    for word in (commandline -opc)[3..-1]
        if test $is_value -eq 1
            set is_value 0
        else if test $ended -eq 0; and test "$word" = --
            set ended 1
        else if test $ended -eq 0; and contains -- "$word" $valued
            set is_value 1
        else if test $ended -eq 1; or not string match -qr '^-.' -- "$word"
            set place (math $place + 1)
        end
    end
    echo $place
end

# Scripts and directories for the first argument.
function __symple_scripts
    __fish_complete_suffix .symple
end

complete -c symple -f
complete -c symple -n __symple_command -l help -d 'Show the commands and options'
complete -c symple -n __symple_command -l version -d 'Show which program this is'
complete -c symple -n __symple_command -a run -d 'Run a script over the records of files'
complete -c symple -n __symple_command -a trace -d 'Write how the group of each record stands'
complete -c symple -n __symple_command -a map -d 'Write the run file of a part of a log'
complete -c symple -n __symple_command -a reduce -d 'Write the report on run files'
complete -c symple -n __symple_command -a join -d 'Write one run file of run files'
complete -c symple -n __symple_command -a check -d 'Read a script, and write its numbers'
complete -c symple -n __symple_command -a make -d 'Make a log, and write a summary of it'

set -l is_run '__symple_command run'
complete -c symple -n $is_run -l form -x -a 'table csv pairs' -d 'Form of the report'
complete -c symple -n $is_run -l max-bytes -x -d 'Bytes of a file: 1 to 268435456'
complete -c symple -n $is_run -l chunk -x -d 'Records of a chunk: 1 to 65536'
complete -c symple -n $is_run -l limit -x -d 'Paths of a summary: 1 to 256'
complete -c symple -n $is_run -l workers -x -d 'Threads that work at once: 1 to 64'
complete -c symple -n $is_run -l watch -d 'Show how far the run has come'
complete -c symple -n "$is_run; and test (__symple_place) -eq 0" -k -a '(__symple_scripts)'
complete -c symple -n "$is_run; and test (__symple_place) -gt 0" -F

set -l is_trace '__symple_command trace'
complete -c symple -n $is_trace -l form -x -a 'table csv pairs' -d 'Form of the report'
complete -c symple -n $is_trace -l every -x -d 'Records that have a row: 1 to 1000000'
complete -c symple -n $is_trace -l max-bytes -x -d 'Bytes of a file: 1 to 268435456'
complete -c symple -n $is_trace -l chunk -x -d 'Records of a chunk: 1 to 65536'
complete -c symple -n $is_trace -l limit -x -d 'Paths of a summary: 1 to 256'
complete -c symple -n $is_trace -l workers -x -d 'Threads that work at once: 1 to 64'
complete -c symple -n "$is_trace; and test (__symple_place) -eq 0" -k -a '(__symple_scripts)'
complete -c symple -n "$is_trace; and test (__symple_place) -gt 0" -F

set -l is_map '__symple_command map'
complete -c symple -n $is_map -l first -x -d 'Number of the first record: 1 to 9999999999'
complete -c symple -n $is_map -l max-bytes -x -d 'Bytes of a file: 1 to 268435456'
complete -c symple -n $is_map -l chunk -x -d 'Records of a chunk: 1 to 65536'
complete -c symple -n $is_map -l limit -x -d 'Paths of a summary: 1 to 256'
complete -c symple -n $is_map -l workers -x -d 'Threads that work at once: 1 to 64'
complete -c symple -n "$is_map; and test (__symple_place) -eq 0" -k -a '(__symple_scripts)'
complete -c symple -n "$is_map; and test (__symple_place) -gt 0" -F

set -l is_reduce '__symple_command reduce'
complete -c symple -n $is_reduce -l form -x -a 'table csv pairs' -d 'Form of the report'
complete -c symple -n $is_reduce -l max-bytes -x -d 'Bytes of a file: 1 to 268435456'
complete -c symple -n "$is_reduce; and test (__symple_place) -eq 0" -k -a '(__symple_scripts)'
complete -c symple -n "$is_reduce; and test (__symple_place) -gt 0" -F

set -l is_join '__symple_command join'
complete -c symple -n $is_join -l limit -x -d 'Paths of a summary: 1 to 256'
complete -c symple -n $is_join -l max-bytes -x -d 'Bytes of a file: 1 to 268435456'
complete -c symple -n "$is_join; and test (__symple_place) -eq 0" -k -a '(__symple_scripts)'
complete -c symple -n "$is_join; and test (__symple_place) -gt 0" -F

set -l is_check '__symple_command check'
complete -c symple -n $is_check -l print -d 'Write the script in one layout'
complete -c symple -n "$is_check; and test (__symple_place) -eq 0" -k -a '(__symple_scripts)'

set -l is_make '__symple_command make'
complete -c symple -n $is_make -l chunk -x -d 'Records of a chunk: 1 to 65536'
complete -c symple -n $is_make -l limit -x -d 'Paths of a summary: 1 to 256'
complete -c symple -n $is_make -l workers -x -d 'Threads that work at once: 1 to 64'
