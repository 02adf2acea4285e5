#!/usr/bin/env bash
# Encodes the text of a component, lists or prints a binary, and says in plain words why either is refused: ./wast --help
#
# Words and files are looked at first; then the program is chosen, or built (scripts/build.bash); then it runs on each text or binary.
set -u

here=$(dirname "$(readlink -f "${BASH_SOURCE[0]}")")
# shellcheck source=scripts/build.bash
. "$here/scripts/build.bash"

# One byte more than a text has: no more is read.
most=67108865

help() {
    cat <<'END'
./wast encode [--legacy] [--raw] [-o FILE] [TEXT]    writes the binary of a component's text, in hexadecimal; --raw: its bytes alone
./wast origins [--legacy] [-o FILE] [TEXT]           writes where each definition of the binary comes from, a line each
./wast encode [--legacy] -o FOLDER TEXT ..           writes the bytes of each text NAME.wat to FOLDER/NAME.wasm; origins: NAME.origins
./wast list [BINARY]                                 writes what each reference of a component's binary is to, a line each
./wast order [BINARY]                                writes whether each reference is to something that stands before it
./wast print [--lines] [-o FILE] [BINARY]            writes the text of a component's binary, with numerals in place of names; --lines: a
                                                     definition a line, with the index of each item in a comment (docs/PRINTING.md)
./wast compose [--raw] [-o FILE] [PLAN]              writes the binary of the component that a plan composes (docs/COMPOSING.md)
./wast gen N                                         makes a text with N types, encodes it, and prints four numbers
./wast prove                                         proves and builds the program, which later calls then run
./wast library FOLDER                                proves and builds libwast.a, for C and Rust, and puts it there with wast.h
./wast --version, ./wast --help                      the version; this page

TEXT, BINARY and PLAN are files; without one, or as -, it is read from standard input. By --legacy references are read in their older forms
too. -o stands for --raw, and FILE is written only where the text is encoded or the binary printed. A BINARY is taken as it is, or in
hexadecimal where it begins with the digits 0061736d.

A text that is refused has its kind and offset on standard error, as the program prints them, and below them the same in plain
words, with the line, the column in characters, and the text of the line with a mark under the place. For a binary these are the
words and the byte.

Exit code: 0 done; 1 a text or binary is refused; 2 other words; 3 a read failed; 4 a write failed; 5 memory ran out;
6 the program could not be built. Of several texts it is that of the first that isn't encoded.

The first call compiles the program without proofs, with a test of each index and sum, in about a minute. It then serves each call,
which says so, until ./wast prove or the gate (`rt ci` in this checkout) has made the proved one. An edit in crates/ makes either old.
Building needs `rt` on the path.
END
}

usage() {
    echo "usage: ./wast encode [--legacy] [--raw] [-o FILE] [TEXT] | origins [--legacy] [-o FILE] [TEXT] | list [BINARY] | order [BINARY] | print [--lines] [-o FILE] [BINARY] | compose [--raw] [-o FILE] [PLAN] | gen N | prove | library FOLDER | --help" >&2
    exit 2
}

# What a printed kind means, of a text of so many bytes that is refused at an offset, where an id or another word begins.
words_of() {
    local kind=$1 offset=$2 size=$3 word=$4
    case $kind in
        utf-8) echo "invalid UTF-8" ;;
        TooBig)
            if [ "$size" -ge "$most" ]; then
                echo "the text has more than 67,108,864 bytes"
            else
                echo "the component weighs more than 67,108,864"
            fi ;;
        Lex-UnclosedString) echo "unclosed string" ;;
        Lex-BadStringChar) echo "invalid character in a string" ;;
        Lex-BadEscape) echo "invalid escape in a string" ;;
        Lex-UnclosedComment) echo "unclosed block comment" ;;
        Lex-BadChar) echo "unexpected character" ;;
        Lex-EmptyId) echo "empty identifier or annotation name" ;;
        Lex-BadIdText) echo "identifier that is not valid UTF-8" ;;
        Lex-Glued) echo "missing white space after the name of an annotation" ;;
        Parse)
            if [ "$offset" -ge "$size" ]; then
                echo "unexpected end of the text"
            else
                echo "unexpected token"
            fi ;;
        TooDeep) echo "more than 100 open parentheses" ;;
        Module) echo "this is a core module, and a component is expected" ;;
        Form-U1) echo "attributes of an import or export name are not supported" ;;
        Form-U2) echo "map types are not supported" ;;
        Form-U3) echo "value imports and exports are not supported" ;;
        Form-U4) echo "the options gc and core-type are not supported" ;;
        Form-U5) echo "this built-in function is not supported" ;;
        Form-U6) echo "this core type is not supported" ;;
        Form-U7) echo "this field of a core module, or an instruction in it, is not supported" ;;
        Duplicate | Core-Duplicate) echo "name \`$word\` is already defined" ;;
        Unknown | Core-Unknown) echo "unknown name \`$word\`" ;;
        OuterKind) echo "\`$word\` is an item of an enclosing component; of these only modules, core types, types and components can be named here" ;;
        OuterComponent) echo "this outer alias names no enclosing component or type" ;;
        OuterCount) echo "outer count is larger than the number of enclosing scopes" ;;
        CoreExportKind) echo "no export name may follow a core type or a core instance" ;;
        Core-ImportOrder) echo "import after a function, table, memory or global of the core module" ;;
        Core-TypeMismatch) echo "the type of this index is not the one that is written after it" ;;
        Plan-Syntax) echo "this line is no part, instance or export" ;;
        Plan-Duplicate) echo "duplicate name" ;;
        Plan-Unknown) echo "unknown name, or one of another kind" ;;
        Plan-Part) echo "these digits are no component that can be read" ;;
        hex) echo "no hexadecimal digit, or an odd number of digits" ;;
        Read-TooBig) echo "the binary has more than 8,388,608 bytes" ;;
        Read-NotComponent) echo "no component: the section that begins here is not one of a component, in its shortest form" ;;
        Read-TooDeep) echo "a component or a type of one begins here inside 100 others" ;;
        Print-CoreModule) echo "a core module is defined in it, which has no text here" ;;
        Print-NoText) echo "a part of it has no text: a name that is no UTF-8, or an item of a kind that has no word in its place" ;;
        Print-TooBig) echo "its text has more than 67,108,864 bytes, or the component weighs more than 67,108,864" ;;
        Print-TooDeep) echo "a part of its text stands below more than 100 open parentheses" ;;
        *) echo "the text is refused" ;;
    esac
}

# The bytes of a file from an offset on, so many of them.
piece() {
    tail -c "+$(($2 + 1))" -- "$1" 2>/dev/null | head -c "$3"
}

# The id at an offset of a text, in either spelling; at most 80 bytes of it.
id_at() {
    piece "$1" "$2" 80 | head -n 1 | grep -aoE '^\$("([^"\\]|\\.)*"?|[^][(){}",; \t]*)' | tr '\000-\011\013-\037\177' '?'
}

# Of bytes on standard input, how many begin a character.
characters() {
    tr -d '\200-\277' | wc -c
}

# The line around an offset, at most some 70 bytes on either side, and a mark under the place.
show_line() {
    local text=$1 offset=$2 column=$3 front rest from=$(($2 - $3))
    local LC_ALL=C
    if [ "$column" -gt 70 ]; then
        from=$((offset - 70))
    fi
    front=$(piece "$text" "$from" $((offset - from)) | tr '\000-\010\013-\037\177' '?')
    rest=$(piece "$text" "$offset" 70 | head -n 1 | tr '\000-\010\013-\037\177' '?')
    if [ "$column" -gt 70 ]; then
        while [[ $front == [$'\200'-$'\277']* ]]; do front=${front#?}; done
        front=...$front
    fi
    printf '  %s%s\n' "$front" "$rest"
    printf '  %s^\n' "$(printf '%s' "$front" | tr -d '\200-\277' | tr -c '\t' ' ')"
}

# Says in plain words why the text or binary in a file is refused, by the program's line.
explain() {
    local text=$1 shown=$2 faults=$3 kind offset size line before column
    [[ $faults =~ ^error:\ ([A-Za-z0-9-]+)\ at\ ([0-9]+)$ ]] || return
    kind=${BASH_REMATCH[1]} offset=${BASH_REMATCH[2]}
    if is_of_binaries; then
        echo "$shown: byte $offset: $(words_of "$kind" "$offset" 0 '')"
        return
    fi
    size=$(wc -c <"$text")
    # The bytes of the line in front of the place; the `x` stands for what begins there.
    before=$({ head -c "$offset" -- "$text"; printf x; } | tail -n 1 | wc -c)
    before=$((before - 1))
    line=$(($(head -c "$offset" -- "$text" | tr -cd '\n' | wc -c) + 1))
    column=$(($(piece "$text" $((offset - before)) "$before" | characters) + 1))
    echo "$shown:$line:$column: $(words_of "$kind" "$offset" "$size" "$(id_at "$text" "$offset")")"
    [ "$kind" = TooBig ] || show_line "$text" "$offset" "$before"
}

# ---- the words of a call

# Whether what is asked for is of a binary.
is_of_binaries() {
    [ "$what" = list ] || [ "$what" = order ] || [ "$what" = print ]
}

# Whether a file begins as a binary in hexadecimal does.
is_hexadecimal() {
    [ "$(head -c 8 -- "$1" | tr -d '\000')" = 0061736d ]
}

# Reads the words after `encode`, `origins`, `list`, `order`, `print` or `compose`.
read_words() {
    while [ $# -gt 0 ]; do
        case $1 in
            --legacy) [ "$what" = encode ] || [ "$what" = origins ] || usage; legacy=--legacy ;;
            --raw) [ "$what" = encode ] || [ "$what" = compose ] || usage; raw=--raw ;;
            --lines) [ "$what" = print ] || usage; lines=--lines ;;
            -o) [ "$what" != list ] && [ "$what" != order ] || usage; [ -n "${2-}" ] || usage; target=$2; shift ;;
            -) texts+=(-) ;;
            -h | --help) help && exit ;;
            -* | '') usage ;;
            *) texts+=("$1") ;;
        esac
        shift
    done
    [ ${#texts[@]} -gt 0 ] || texts=(-)
    [ -z "$target" ] || [ "$what" = origins ] || raw=--raw
    ! is_of_binaries || raw=--raw
}

# Looks at the files of a call, before anything is built.
check_files() {
    local text folder=$target
    for text in "${texts[@]}"; do
        [ "$text" = - ] || { [ -r "$text" ] && [ ! -d "$text" ]; } || fail 3 "$text is no file that can be read"
    done
    if [ -z "$target" ]; then
        [ ${#texts[@]} = 1 ] || usage
        return
    fi
    [ ${#texts[@]} -gt 1 ] || [ -d "$target" ] || folder=$(dirname "$target")
    if [ ! -d "$folder" ] || [ ! -w "$folder" ]; then
        fail 4 "$folder is no folder that can be written"
    fi
    [ ! -d "$target" ] || check_names
}

# Looks whether each of several texts has a name, and one of its own.
check_names() {
    local text name names=' '
    for text in "${texts[@]}"; do
        [ "$text" != - ] || fail 2 "standard input has no name in $target"
        name=$(name_in_target "$text")
        [[ $names != *" $name "* ]] || fail 2 "two texts would be $name"
        names+="$name "
    done
}

# Where what is made of a text or binary goes: nowhere without -o, else a file, by its own name where the target is a folder.
name_in_target() {
    local name=${1##*/} from=wat to=wasm
    case $what in
        origins) to=origins ;;
        print) from=wasm to=wat ;;
    esac
    if [ -d "$target" ]; then
        echo "${target%/}/${name%."$from"}.$to"
    else
        echo "$target"
    fi
}

# ---- the program on a text or binary

# Runs the program on a text or binary, and explains a refusal. Answers the program's exit code.
run_on() {
    local text=$1 shown=$1 words=("$what" ${legacy:+"$legacy"} ${raw:+"$raw"}) status
    if [ "$text" = - ]; then
        shown="standard input"
        # Where it can't be kept, the program reads it by itself, and says so.
        head -c "$most" >"$work/text" 2>/dev/null || { "$program" "${words[@]}"; return; }
        text=$work/text
    elif [ ! -f "$text" ]; then
        # What is no plain file can be read once.
        head -c "$most" <"$text" >"$work/text" || return 3
        text=$work/text
    fi
    if is_of_binaries && is_hexadecimal "$text"; then
        words=("$what")
    fi
    if [ -n "$lines" ]; then
        "$program" "${words[@]}" <"$text" 2>"$work/faults" >"$work/flat" && LC_ALL=C awk -f "$here/scripts/lines.awk" "$work/flat"
    else
        "$program" "${words[@]}" <"$text" 2>"$work/faults"
    fi
    status=$?
    cat "$work/faults" >&2
    [ "$status" != 1 ] || explain "$text" "$shown" "$(cat "$work/faults")" >&2
    return "$status"
}

# The same for a text whose binary goes to a file, which stays as it was if there is none.
run_into() {
    local text=$1 place status
    place=$(name_in_target "$text")
    run_on "$text" >"$work/made"
    status=$?
    if [ "$status" = 0 ] && ! cat "$work/made" >"$place"; then
        status=4
    fi
    return "$status"
}

run_on_all() {
    local text ended=0 status
    for text in "${texts[@]}"; do
        if [ -n "$target" ]; then
            run_into "$text"
        else
            run_on "$text"
        fi
        status=$?
        [ "$ended" != 0 ] || ended=$status
    done
    return "$ended"
}

what=${1-} legacy='' raw='' lines='' target='' texts=() program=''
case $what in
    -h | --help) help ;;
    --version) echo "wast $(cat "$here/VERSION")" ;;
    prove) [ $# = 1 ] || usage; prove ;;
    library) [ $# = 2 ] || usage; make_library "$2" ;;
    gen)
        [[ $# = 2 && $2 =~ ^[0-9]+$ ]] || usage
        choose
        "$program" gen "$2" ;;
    encode | origins | list | order | print | compose)
        read_words "${@:2}"
        check_files
        choose
        work=$(mktemp -d) || exit 6
        trap 'rm -rf "$work"' EXIT
        run_on_all ;;
    *) usage ;;
esac
