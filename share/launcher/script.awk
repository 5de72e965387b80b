# Shows where a script is refused: its name, the line and the column, the line, a mark under the
# byte, and what to write instead, as far as the tokens around it show that. From the environment:
# SAID, the program's line; NAME, the script as it was named; PLACE, the file to read, empty if it
# can't be read again.
# For awk over bytes (LC_ALL=C).

function say(text) { print "    " text }

# The text with blanks in place of the bytes that a terminal may take for commands.
function shown(text) {
    gsub(/[\001-\010\013-\037\177]/, "?", text)
    return text
}

# Adds the tokens of a line that begins at the byte `from` of the script.
function lex(text, from,    at, rest, size) {
    at = 1
    while (at <= length(text)) {
        rest = substr(text, at)
        if (match(rest, /^[ \t\r]+/) || match(rest, /^#.*/)) {
            at += RLENGTH
            continue
        }
        if (match(rest, /^[A-Za-z_][A-Za-z0-9_]*/) || match(rest, /^[0-9][A-Za-z0-9_]*/) ||
            match(rest, /^"([^"\\]|\\.)*"/) || match(rest, /^(==|!=|<=|>=|\.\.)/))
            size = RLENGTH
        else
            size = 1
        token[++tokens] = substr(rest, 1, size)
        place[tokens] = from + at - 1
        at += size
    }
}

function is_name(text) { return text ~ /^[A-Za-z_]/ && !(text in keyword) }
function is_operand(text) { return text ~ /^["A-Za-z0-9_]/ && !(text in operator) }

# Sets what the tokens before the fault are: `section` is the declaration, or update or report;
# `first` is the first token of the statement; `kind` of a name that is declared before.
function survey(upto,    i) {
    first = begin = ""
    for (i = 1; i < upto; i++) {
        if (token[i] in declaration && (begin == "" || token[i] ~ /^(update|report)$/))
            section = token[i]
        begin = first = (begin == "" ? token[i] : first)
        if (i + 1 < upto && (token[i] in declaration || token[i] == "let"))
            kind[token[i + 1]] = token[i] (token[i] ~ /^(field|state)$/ ? " " token[i + 3] : "")
        if (token[i] ~ /^[;{}]$/)
            begin = first = ""
    }
}

# What to write where no script goes on with this token.
function of_token(at, before, next_) {
    if (at > tokens)
        return "the script ends too early: is a } or the report missing?"
    if (token[at] == "=" && first == "if")
        return "compare by =="
    if (token[at] ~ /^[-+*\/]$/ && (next_ == "=" || next_ == token[at]) && is_name(before))
        return "write " before " = " before " " token[at] " " (next_ == "=" ? token[at + 2] : 1) ";"
    if (token[at] == "/" && (next_ == "/" || next_ == "*"))
        return "a comment begins with # and goes to the end of the line"
    if (before == "elif" || before == "elsif" || before == "elseif")
        return "write else if"
    if (token[at] == "by" || before == "by" && token[at - 2] == "group")
        return "write group " (token[at] == "by" ? next_ : token[at]) ";"
    if (token[at] == "clamp")
        return "clamp is last: int [0..8] = 0 clamp"
    if (before == "int" && token[at] == "=" || token[at - 2] == ":" && before == "int")
        return "a cell has a range: int [0..1000000] = 0"
    if (section == "state" && token[at] ~ /^(num|word)$/)
        return "a cell of numbers is int [LEAST..GREATEST] = FIRST"
    if (section == "field" && token[at] ~ /^(int|nums|words)$/)
        return "a field is num, word or an enum; only a cell has a range"
    if (before in declaration && token[at] in keyword)
        return token[at] " is a word of the language: " (before == "field" ? \
            "field x from \"" token[at] "\": .. reads the column" : "take another name")
    if (token[at] == "-" && section == "field")
        return "a column with another name: field x from \"" before "-" next_ "\": .."
    if (token[at] == "-" && section == "enum")
        return "a label has letters, digits and _: read a word, and compare it with \"" before "-" \
            next_ "\""
    if (token[at] ~ /^(<|>|<=|>=|==|!=)$/ && first ~ /^(if|else|test)$/ && compares(at))
        return "one comparison at a time: 1 < n and n < 3"
    if (token[at] == "group" && kind_of_group)
        return "one group line names all: group a, b;"
    if (is_operand(before) || before ~ /^[\])]$/)
        if (first == "if" && is_name(token[at]) && (next_ == "=" || token[at] in statement))
            return "what an if does stands in braces: if .. { .. }"
        else if (token[at] in declaration || token[at] in statement || token[at] == "}" ||
            is_name(token[at]))
            return "is a ; missing before it?"
    if (token[at] in declaration)
        return "the order is enum, field, group, state, test, update, report"
    return ""
}

# Whether the condition that this token is in has a comparison before it.
function compares(at,    i) {
    for (i = at - 1; i > 0 && token[i] !~ /^(;|{|}|if|and|or|not|=)$/; i--)
        if (token[i] ~ /^(<|>|<=|>=|==|!=)$/)
            return 1
    return 0
}

# What to write for a byte that begins no token.
function of_byte(text, before_it) {
    if (text ~ /^'/ || text ~ /^\342\200[\230-\237]/)
        return "texts stand in \" and \""
    if (text ~ /^&/)
        return "write and"
    if (text ~ /^\|/)
        return "write or"
    if (text ~ /^!/)
        return "write not; != compares"
    if (text ~ /^\./ && before_it ~ /[0-9]$/)
        return "numbers are whole: count hundredths, 150 for 1.5"
    if (text ~ /^\./)
        return "a range is L..H"
    if (text ~ /^[\200-\377]/)
        return "outside of texts and comments there are only letters A to Z, digits and ASCII signs"
    return ""
}

# What to write for a name that isn't known here.
function of_name(at,    i, name) {
    name = token[at]
    if (section == "field" && name ~ /^(string|str|text|varchar|String)$/)
        return "a field of texts is a word"
    if (section == "field" && name ~ /^(integer|number|float|double|date|time|timestamp|bool)$/)
        return "a field is num (whole numbers), word or an enum"
    if (section == "update" && name ~ /^(min|max|sum|count|length|first|last|part|mean|avg)$/)
        return "functions such as max stand in the report; a cell marked clamp stays in its range"
    for (i = 1; i <= tokens; i++)
        if (i != at && token[i] != name && tolower(token[i]) == tolower(name) && is_name(token[i]))
            return "it is declared as " token[i]
    if (section == "report" && kind[name] ~ /^field/)
        return "the report knows no fields: keep it in a cell"
    for (i = at + 1; i <= tokens; i++)
        if (token[i] == name && token[i - 1] in declaration)
            return "it is declared further down: a name is declared before it is used"
    return "no enum, label, field, cell or test before it has this name"
}

function of_taken(at,    i) {
    if (section == "group")
        return "name it once"
    for (i = 1; i < at; i++)
        if (token[i] == token[at])
            return section == "field" && kind[token[at]] == "enum" ? \
                "the enum has this name: field x from \"" token[at] "\": " token[at] ";" : \
                "it is taken on line " line_of(place[i]) ": take another name"
    return ""
}

function of_kind(at, before, next_) {
    if (token[at] == "is")
        return "a word is compared by ==, and a number too; is compares labels"
    if (token[at] == "==" && (kind[before] ~ /^(field|state)/ || is_name(next_)) && is_name(next_))
        return "labels are compared by is: " before " is " next_
    if (section == "report" && token[at] ~ /^(max|min|sum|length|first|last)$/)
        return token[at] " takes a list: push the numbers to a cell nums"
    if (token[at] ~ /^(<|>|<=|>=|==|!=)$/)
        return section == "report" ? "a report has no conditions: compare in the update" : \
            "a comparison stands in an if or a test, and compares two numbers or two words"
    if (token[at] == "+" && (next_ ~ /^"/ || before ~ /^"/))
        return "words can't be joined"
    if (before == "if" || before == "and" || before == "or" || before == "not")
        return kind[token[at]] ~ /hold/ ? "a test compares what a hold cell has" : \
            "a condition compares: " token[at] " != 0"
    if (kind[token[at]] ~ /hold/)
        return "only a test of its own reads a hold cell: test is_late(then: num) = then > 3;"
    if (first == "let")
        return "a let is of fields, numbers and texts: use the cell itself"
    return "this isn't of the kind that its place wants"
}

function of_line(at) {
    if (token[at] ~ /^(<|>|<=|>=|==|!=)$/)
        return "two cells can't be compared: keep their difference in one cell, or push to a list" \
            " and report its max"
    return "cells can be added to and multiplied by fields and numbers alone: combine cells in" \
        " the report"
}

function of_limit(what) {
    if (what == "group fields")
        return "at most 3: join two of them in the log"
    return "at most " limit[what]
}

# The number of the line with this byte of the script.
function line_of(byte,    i) {
    for (i = lines; i > 1 && start[i] > byte; i--)
        ;
    return i
}

# Shows a line with a mark under its byte `column`, both cut to what fits beside each other.
function show(text, column,    from, mark) {
    from = column > 70 ? column - 60 : 1
    mark = substr(text, from, column - from)
    text = substr(text, from, 90)
    sub(/\r$/, "", text)
    gsub(/[\200-\277]/, "", mark)
    gsub(/[^\t]/, " ", mark)
    say((from > 1 ? ".." : "") shown(text))
    say((from > 1 ? "  " : "") mark "^")
}

function hint(    at, before, next_) {
    for (at = 1; at <= tokens && place[at] < byte; at++)
        ;
    before = token[at - 1]
    next_ = token[at + 1]
    survey(at)
    for (i = 1; i < at; i++)
        if (token[i] == "group")
            kind_of_group = 1
    if (what == "unexpected token")
        return of_token(at, before, next_)
    if (what == "bad byte")
        return of_byte(substr(line[row], column), substr(line[row], 1, column - 1))
    if (what == "bad number")
        return token[at] ~ /^[0-9]+$/ ? "numbers are at most 1000000000000" : \
            "a number has digits alone: 1000, 2000"
    if (what == "long name")
        return "a name has at most 64 bytes"
    if (what == "bad text")
        return "a text is closed on its line, is UTF-8, and has \\\" and \\\\ for \" and \\"
    if (what == "unknown name")
        return of_name(at)
    if (what == "name taken")
        return of_taken(at)
    if (what == "wrong kind")
        return of_kind(at, before, next_)
    if (what == "wrong range")
        return before == "," ? "there is no such part" : \
            "a range is [LEAST..GREATEST], and the first value lies in it"
    if (what == "not linear")
        return of_line(at)
    if (what ~ /^limit of /)
        return of_limit(substr(what, 10))
    return ""
}

# words TEXT INTO: each word of the text becomes an index.
function words(text, into,    i, many, list) {
    many = split(text, list)
    for (i = 1; i <= many; i++)
        into[list[i]]
}

BEGIN {
    said = ENVIRON["SAID"]
    if (said ~ /^symple: script: [0-9]+ paths/) {
        say("at most 1024 paths: the cases of one if and of the next multiply; else if adds them,")
        say("and an if without a cell has none; see \"The path bound\" in the manual")
        exit
    }
    if (!match(said, / at byte [0-9]+/) || said !~ /^symple: script: /)
        exit
    byte = substr(said, RSTART + 9, RLENGTH - 9) + 0
    what = substr(said, 17, RSTART - 17)
    words("enum field group state test update report", declaration)
    words("let push keep if else", statement)
    words("enum field from num word else group state int nums words hold test update report let" \
        " push keep if and or not is clamp", keyword)
    words("and or not is from if else", operator)
    limit["enums"] = 16
    limit["fields"] = limit["cells"] = limit["tests"] = limit["columns"] = limit["labels"] = 32
    limit["parameters"] = 8
    limit["parts"] = 4
    limit["statements"] = 512
    limit["depth"] = "64 levels of if, not and ("
    limit["operands"] = 256

    if (ENVIRON["PLACE"] == "") {
        say("the script can't be read again, so its line isn't shown")
        exit
    }
    while ((getline text <ENVIRON["PLACE"]) > 0) {
        line[++lines] = text
        start[lines] = size
        lex(text, size)
        size += length(text) + 1
    }
    row = line_of(byte) + !lines
    # The end of the text is shown after its last token.
    column = byte - start[row] + 1
    if (tokens && byte > place[tokens] && what == "unexpected token") {
        byte = place[tokens] + length(token[tokens])
        row = line_of(place[tokens])
        column = byte - start[row] + 1
    }
    print shown(ENVIRON["NAME"]) ":" row ":" column ":"
    show(line[row], column)
    text = hint()
    if (text != "")
        say(text)
}
