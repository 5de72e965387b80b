# Writes a script of one kind with at most `size` bytes, which is within the limits of the language
# and breaks no rule: parentheses, operands, statements, names, locals, labels, tests, texts or
# comments.
# What is left of the size is a comment.
function repeated(piece, times,    all) {
    all = ""
    while (times-- > 0)
        all = all piece
    return all
}

# The local with this number.
function local(number) {
    return "l" (10 + number)
}

# A sum of 255 of the 32 locals.
function sum_of_locals(    all, number) {
    all = ""
    for (number = 0; number < 255; number++)
        all = all " + " local(number % 32)
    return all
}

# 16 enums of 32 labels each, the most that a script may have.
function enums(    all, number) {
    all = ""
    for (number = 0; number < 512; number++) {
        if (number % 32 == 0)
            all = all "enum e" (10 + number / 32) " { "
        all = all "k" number (number % 32 < 31 ? ", " : " }\n")
    }
    return all
}

# 32 tests of the hold cell, with 8 parameters each, the most that a script may have.
function tests(    all, number) {
    all = ""
    for (number = 10; number < 42; number++)
        all = all "test t" number "(h: num, a: num, b: num, c: num, d: num, e: num, f: num, g: num)" \
            " = a > h;\n"
    return all
}

# What stands before the statements of the kind.
function prelude(    all, number) {
    all = ""
    if (kind == "locals")
        for (number = 0; number < 32; number++)
            all = all "let " local(number) " = x;\n"
    return all
}

# A statement of the kind.
function statement() {
    if (kind == "parentheses")
        return "n = " repeated("(", 63) "n" repeated(")", 63) ";"
    if (kind == "operands")
        return "n = n" repeated(" + 1", 255) ";"
    if (kind == "statements")
        return "if x < 0 { let " long_local " = x * x + 1; n = n - " long_local "; } " \
            "else { push " long_list " x; keep " long_hold "(x); }" repeated(" ", 400)
    if (kind == "names")
        return long_cell " = " long_cell " + " long_field " - " long_field ";"
    if (kind == "locals")
        return "n = n" sum_of_locals() ";"
    if (kind == "labels" || kind == "tests")
        return "n = n" repeated(" + x", 255) ";"
    if (kind == "texts")
        return "if w == \"" repeated("text \\\" ", 32) "\" { n = 0; }"
    return "# " repeated("any bytes ", 12)
}

BEGIN {
    long_field = repeated("f", 64)
    long_cell = repeated("n", 64)
    long_hold = repeated("h", 64)
    long_list = repeated("l", 64)
    long_local = repeated("v", 64)
    begin = (kind == "labels" || kind == "tests" ? enums() : "") \
        "field x: num;\nfield w: word;\nfield " long_field ": num;\nstate n: int [0..9] = 0;\n" \
        "state " long_cell ": int [0..9] = 0;\nstate " long_hold ": hold(num = 0);\n" \
        "state " long_list ": nums [0..9];\n" (kind == "tests" ? tests() : "") \
        "update {\n" prelude()
    end = "}\nreport { n = n; }\n"
    printf "%s", begin
    left = size - length(begin) - length(end)
    body = statement() "\n"
    while (length(body) <= left) {
        printf "%s", body
        left -= length(body)
    }
    if (left > 1)
        printf "#%s\n", repeated(".", left - 2)
    printf "%s", end
}
