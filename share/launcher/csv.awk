# Reads records of CSV files as symple does: lines end in LF, CRLF or CR, empty ones are no records,
# a quote opens a quoted field where the field begins, and two quotes inside it are one.
# For awk over bytes (LC_ALL=C).

# Begins with the first line of a file.
function open_file() { row = has_rest = 0 }

# Reads the next record into `record`, with LF for the line ends inside its quotes; `record_row` is
# the line on which it begins. Returns whether there is one.
function next_record(file,    piece, cut, is_quoted, is_begun) {
    while (1) {
        if (!has_rest) {
            if ((getline rest <file) <= 0)
                return is_begun
            if (++row == 1)
                sub(/^\357\273\277(\357\273\277)?/, "", rest)
        }
        cut = index(rest, "\r")
        piece = cut ? substr(rest, 1, cut - 1) : rest
        rest = cut ? substr(rest, cut + 1) : ""
        has_rest = rest != ""
        if (!is_begun && piece == "")
            continue
        record = is_begun ? record "\n" piece : piece
        if (!is_begun)
            record_row = row
        is_begun = 1
        is_quoted = stays_quoted(piece, is_quoted)
        if (!is_quoted)
            return 1
    }
}

# Whether a quoted field is open at the end of a line, where one is open at its start or not.
function stays_quoted(text, is_quoted,    at) {
    if (!is_quoted && !index(text, "\""))
        return 0
    while (1) {
        if (is_quoted) {
            if (!(at = index(text, "\"")))
                return 1
            text = substr(text, at + 1)
            if (text ~ /^"/) {
                text = substr(text, 2)
                continue
            }
            is_quoted = 0
            if (!(at = index(text, ",")))
                return 0
            text = substr(text, at + 1)
        }
        if (text ~ /^"/)
            at = 0
        else if (!(at = index(text, ",\"")))
            return 0
        text = substr(text, at ? at + 2 : 2)
        is_quoted = 1
    }
}

# Splits a record into its fields, and returns how many there are.
function fields(text, into,    many, at, value) {
    while (1) {
        value = ""
        if (text ~ /^"/) {
            text = substr(text, 2)
            while ((at = index(text, "\"")) && substr(text, at + 1, 1) == "\"") {
                value = value substr(text, 1, at)
                text = substr(text, at + 2)
            }
            value = value (at ? substr(text, 1, at - 1) : text)
            text = at ? substr(text, at + 1) : ""
        }
        at = index(text, ",")
        into[++many] = value (at ? substr(text, 1, at - 1) : text)
        if (!at)
            return many
        text = substr(text, at + 1)
    }
}
