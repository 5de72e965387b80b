# Explains why a header, a record or a run file is refused: shows the line, and says what may stand
# there. The arguments are those of the program. From the environment: SAID, the program's line;
# IS_FILES, whether all logs are files that can be read again; SCRIPT and INPUT, what the script and
# standard input are read again by, empty where they can't be.
# For awk over bytes (LC_ALL=C), after csv.awk.

function say(text) { print "    " text }

# The text, cut, with blanks in place of the bytes that a terminal may take for commands.
function shown(text) {
    gsub(/\n/, " ", text)
    gsub(/[\001-\010\012-\037\177]/, "?", text)
    return length(text) > 90 ? substr(text, 1, 90) ".." : text
}

function trimmed(text) {
    gsub(/^[ \t]+|[ \t]+$/, "", text)
    return text
}

# Reads the arguments: `file` are the logs, and `first` is the number of the first record.
function read_arguments(    i, word, names) {
    first = 1
    for (i = 1; i < ARGC; i++) {
        word = ARGV[i]
        if (!is_after && word ~ /^--[a-z]/) {
            if (word ~ /^--first=/)
                first = substr(word, 9)
            else if (word == "--first")
                first = ARGV[i + 1]
            if (word !~ /=/ && word != "--print" && word != "--watch")
                i++
        } else if (!is_after && word == "--")
            is_after = 1
        else if (++names > 2)
            file[++files] = word
    }
}

# What a log is read by.
function place(name) {
    if (name == "/dev/stdin")
        return ENVIRON["INPUT"]
    return name ~ /^\// ? name : "./" name
}

# Opens a log, and reads its header into `header`, with `width` names.
function open_log(name) {
    open_file()
    width = 0
    if (next_record(place(name)))
        width = fields(record, header)
}

# The record of this number, of all logs, into `record` and `log_name`. Returns whether it is there.
function find_record(number,    i) {
    for (i = 1; i <= files; i++) {
        log_name = file[i]
        open_log(log_name)
        while (next_record(place(log_name)))
            if (--number == 0)
                return 1
        close(place(log_name))
    }
    return 0
}

# The labels of the enum of the field with this header, with commas between them.
function labels_of(name,    text, line_, kind) {
    if (ENVIRON["SCRIPT"] == "")
        return ""
    while ((getline line_ <ENVIRON["SCRIPT"]) > 0) {
        sub(/#.*/, "", line_)
        text = text line_ " "
    }
    gsub(/[ \t\r]+/, " ", text)
    enums = text
    while (match(text, /field [A-Za-z0-9_]+( from "[^"]*")? ?: ?[A-Za-z0-9_]+/)) {
        kind = substr(text, RSTART, RLENGTH)
        text = substr(text, RSTART + RLENGTH)
        if (index(kind, "from \"" name "\"") ||
            kind !~ / from "/ && kind ~ ("^field " name " ?:")) {
            sub(/.*: ?/, "", kind)
            if (match(enums, "enum " kind " ?[{][^}]*[}]")) {
                text = substr(enums, RSTART, RLENGTH)
                sub(/^[^{]*[{] */, "", text)
                sub(/[ ,]*[}]$/, "", text)
                return text
            }
        }
    }
    return ""
}

function on_number(value) {
    value = trimmed(value)
    if (value == "")
        say("it is empty: field x: num else 0; gives it a number")
    else if (value ~ /^[-+]?[0-9]+$/) {
        say("numbers are from -10^12 to 10^12, and this one isn't")
        say("symple-prepare --time COLUMN:ms makes seconds of epoch milliseconds")
    } else if (value ~ /^[0-9][0-9][0-9][0-9]-[0-9][0-9]-[0-9][0-9]/ ||
        value ~ /^[0-9]+[\/.][0-9]+[\/.][0-9]+/ || value ~ /^[0-9]+:[0-9][0-9]/)
        say("a time has to be a number: symple-prepare --time COLUMN makes seconds of it")
    else if (value ~ /^[-+]?[0-9]*\.[0-9]+$/ || value ~ /^[-+]?[0-9]+,[0-9]$/ ||
        value ~ /^[-+]?[0-9]+,[0-9][0-9]$/)
        say("numbers are whole: symple-prepare --scale COLUMN:2 makes hundredths, 150 of 1.5")
    else if (value ~ /^[-+]?[0-9]+([,'_ ][0-9][0-9][0-9])+$/)
        say("a number has digits alone, without signs between them")
    else
        say("a number is digits with at most one sign before them, from -10^12 to 10^12")
}

function on_label(name, value,    labels, list, many, i) {
    labels = labels_of(name)
    if (trimmed(value) == "")
        say("it is empty: field x: .. else LABEL; gives it a label")
    many = split(labels, list, / ?, ?/)
    for (i = 1; i <= many; i++)
        if (tolower(trimmed(value)) == tolower(list[i]))
            say("it differs from " list[i] " in upper and lower case")
    if (labels != "")
        say("the labels are " shown(labels))
    say("a field of any texts is a word: compare it by ==")
}

# Explains a field of a record that can't be read.
function on_field(name, what,    i, value, many) {
    many = fields(record, value)
    for (i = 1; i <= width && header[i] != name; i++)
        ;
    if (i > many)
        return
    say(shown(name) " is \"" shown(value[i]) "\"")
    if (what == "a number")
        on_number(value[i])
    else if (what == "a label")
        on_label(name, value[i])
    else
        say("it is of another encoding: iconv -f latin1 -t utf-8 makes UTF-8 of Latin 1, say")
}

# Explains a record that isn't as wide as its header.
function on_width(many) {
    say("the header has " width " fields, and this record has " many)
    if (record ~ /\n/)
        say("it goes over several lines: is a quote not closed?")
    else if (many > width)
        say("a comma inside a field is right if the whole field is in quotes")
    else if (record ~ /[;\t|]/ && many == 1)
        say("fields are separated by commas")
}

function on_record(said,    number, what) {
    match(said, /: record [0-9]+: [^\n]*$/)
    what = substr(said, RSTART + 9)
    number = what + 0
    sub(/^[0-9]+: /, "", what)
    if (!ENVIRON["IS_FILES"] || !find_record(number - first + 1) ||
        index(said, "symple: " log_name ": record ") != 1) {
        say("the log can't be read again, so the record isn't shown")
        if (what ~ / is not a number$/)
            on_number("none")
        return
    }
    print shown(log_name) ":" record_row ":"
    say(shown(record))
    if (what ~ /^[0-9]+ fields$/)
        on_width(what + 0)
    else if (match(what, / is not [^\n]*$/))
        on_field(substr(what, 7, RSTART - 7), substr(what, RSTART + 8))
}

# Explains a header.
function on_header(said,    i, name, what) {
    for (i = 1; i <= files && index(said, "symple: " file[i] ": header: ") != 1; i++)
        ;
    if (i > files)
        return
    what = substr(said, length(file[i]) + 19)
    if (!ENVIRON["IS_FILES"]) {
        say("the log can't be read again, so its header isn't shown")
        return
    }
    open_log(file[i])
    print shown(file[i]) ":" record_row ":"
    say(shown(record))
    if (what ~ / twice$/) {
        say("rename one of the two in the log")
        return
    }
    name = substr(what, 10)
    for (i = 1; i <= width; i++)
        if (tolower(trimmed(header[i])) == tolower(trimmed(name))) {
            say("write field x from \"" header[i] "\": .., with these blanks and letters")
            return
        }
    if (width == 1 && record ~ /[;\t|]/)
        say("fields are separated by commas")
    else
        say("field x from \"..\": .. reads a column with another name")
}

function on_run_file(said) {
    if (said ~ /: not a run file$/)
        say("run files are what symple map writes; one that was cut off isn't one")
    else if (said ~ /: run of another script$/)
        say("map wrote it by another script: reduce and join take the script that map took")
    else if (said ~ /: records do not follow$/)
        say("a part is missing, comes twice or comes too early; map --first N gives a part's" \
            " first number")
    else if (said ~ /: no path for group [0-9]+$/)
        say("it doesn't say what becomes of the group as the files before it leave it: are all" \
            " of one log?")
    else
        return 0
    return 1
}

BEGIN {
    said = ENVIRON["SAID"]
    sub(/\n$/, "", said)
    read_arguments()
    if (on_run_file(said))
        exit
    if (said ~ /: record [0-9]+: ([0-9]+ fields|field .* is not (a number|a label|UTF-8))$/)
        on_record(said)
    else if (said ~ /: header: /)
        on_header(said)
    exit
}
