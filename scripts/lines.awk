# Lays out the printed text of a component (docs/PRINTING.md): a definition a line, indented by two spaces a scope, with the index of each item
# in a comment `(;N;)`. ./wast print --lines runs it.
#
# A quote stands at the beginning and at the end of a string alone, so every second record is what stands in one. All else is words, numerals
# and parentheses. `deep` parentheses are open; `top` is the innermost scope, whose definitions begin where `inside[top]` are. Of a definition
# `head` has its first word, with the second one after `core` and `canon`, and `group` the words of the parentheses in it.

BEGIN {
    RS = "\""
    top = deep = is_held = 0
    is_tight = 1
}

# Writes a token with the space in front of it, or keeps it while the space of an exported item isn't known.
function put(space, token) {
    if (is_held) {
        held = held space token
    } else {
        printf "%s%s", space, token
    }
}

function line(indent) {
    return sprintf("\n%" (2 * indent) "s", "")
}

# The index of the next item of a space, as a comment.
function comment(items) {
    return " (;" (count[top, items]++) ";)"
}

# A scope, whose first word was put.
function enter(kind,    key, parts) {
    top++
    inside[top] = deep
    kinds[top] = kind
    is_filled[top] = 0
    for (key in count) {
        split(key, parts, SUBSEP)
        if (parts[1] == top) delete count[key]
    }
}

function opening() {
    if (top && deep == inside[top]) {
        put(line(top), "(")
        is_filled[top] = 1
        is_numbered = 0
        head = ""
    } else {
        put(is_tight ? "" : " ", "(")
    }
    deep++
    group = ""
    is_tight = 1
}

function closing() {
    if (top && deep == inside[top]) {
        if (is_filled[top]) put(line(top - 1), "")
        top--
        head = "scope"
    }
    deep--
    put("", ")")
    group = ""
    is_tight = 0
}

# A word of a definition itself.
function add_to_head(word) {
    if (head != "" && head != "core" && head != "canon") return
    head = head == "" ? word : head " " word
    if (head == "export") {
        is_held = 1
        held = ""
    } else if (head == "type" && kinds[top] == "module") {
        put("", comment("core type"))
    } else if (head ~ /^(type|component|instance|core type|core instance)$/) {
        put("", comment(head))
    }
    if (head == "component") enter("component")
}

# A word of a group in a definition.
function add_to_group(word) {
    group = group == "" ? word : group " " word
    if (is_held && group != "core") {
        is_held = 0
        put(kinds[top] == "module" ? "" : comment(group), held)
    } else if ((head == "import" || head == "alias") && group != "core" && !is_numbered) {
        is_numbered = 1
        put("", comment(kinds[top] == "module" ? "core " group : group))
    } else if (head == "type" && (group == "component" || group == "instance")) {
        enter("type")
    } else if (head == "core type" && group == "module") {
        enter("module")
    } else if ((head == "core rec" || head == "rec") && group == "type") {
        put("", comment("core type"))
    } else if ((head == "canon lift" && group == "func") || (head ~ /^canon/ && head != "canon lift" && group == "core func")) {
        put("", comment(group))
    }
}

# A word or numeral.
function word(token) {
    put(is_tight ? "" : " ", token)
    is_tight = 0
    if (top == 0) {
        enter("component")
    } else if (token ~ /^[0-9]/) {
        return
    } else if (deep == inside[top] + 1) {
        add_to_head(token)
    } else if (deep == inside[top] + 2) {
        add_to_group(token)
    } else if (deep == inside[top] + 3 && head == "start") {
        put("", comment("value"))
    }
}

NR % 2 == 0 {
    put(is_tight ? "" : " ", "\"" $0 "\"")
    is_tight = 0
    next
}

{
    gsub(/\(/, " ( ")
    gsub(/\)/, " ) ")
    many = split($0, tokens, /[ \n]+/)
    for (i = 1; i <= many; i++) {
        if (tokens[i] == "(") opening()
        else if (tokens[i] == ")") closing()
        else if (tokens[i] != "") word(tokens[i])
    }
}

END { print "" }
