#!/bin/sh
# Builds bindings/c/example.c as C and, where there is a C++ compiler, as C++, runs it on files and
# holds what it prints to the texts of document 01's table and to its refusals.
#
#   RICESHOAL_LIB_DIR  the folder of libcapi.a (default crates/capi/out)
#
# Where there is no C or C++ compiler, it says so in one line; with CI set that is a failure.
set -eu

here=$(CDPATH= cd -- "$(dirname -- "$0")" && pwd -P)
root=$(CDPATH= cd -- "$here/../.." && pwd -P)
. "$root/tests/common.sh"
target=$root/target/bindings-c
library=${RICESHOAL_LIB_DIR:-$root/crates/capi/out}/libcapi.a
source=$root/bindings/c/example.c
warnings='-Wall -Wextra -Werror -pedantic'
runs=0
differences=0

differs() {
    differences=$((differences + 1))
    echo "difference: $1"
}

# One run of the program: the number that it returns, what it prints, and its arguments. Where the
# number is not 0, it prints to stderr alone, else to stdout alone.
expect() {
    number=$1
    expected=$2
    shift 2
    runs=$((runs + 1))
    got=0
    "$program" "$@" >"$target/stdout" 2>"$target/stderr" || got=$?
    printf '%s\n' "$expected" >"$target/expected"
    printed=stdout
    silent=stderr
    [ "$number" = 0 ] || { printed=stderr; silent=stdout; }
    if [ "$got" != "$number" ]; then
        differs "$program $*: returned $got, expected $number"
    elif ! cmp -s "$target/$printed" "$target/expected" || [ -s "$target/$silent" ]; then
        differs "$program $*: printed $(cat "$target/stdout" "$target/stderr")"
    fi
}

# The files whose images stand in the table or are refused.
make_files() {
    printf '\022' >"$target/12"
    printf '\022\017' >"$target/120f"
    printf '\253\300' >"$target/abc0"
    printf '\021\042' >"$target/1122"
    : >"$target/empty"
    head -c 33 /dev/zero >"$target/zeros"
    head -c 65536 /dev/zero >"$target/highest"
    head -c 65537 /dev/zero >"$target/higher"
    head -c 2097152 /dev/zero >"$target/longest"
    head -c 2097153 /dev/zero >"$target/longer"
}

# A text of several lines without the newline at its end, which $(..) cuts off.
lines() {
    printf '%s\n' "$@"
}

run_all() {
    end=:00000001FF
    expect 0 "$(lines :0300000012345661 $end)"
    expect 0 "$(lines :0100000012ED $end)" "$target/12"
    expect 0 "$(lines :02000000ABC093 $end)" "$target/abc0" hex
    expect 0 "$(lines :020000001122CB $end)" "$target/1122"
    expect 0 "$end" "$target/empty"
    zeros=$(printf '%064d' 0)
    expect 0 "$(lines ":20000000${zeros}E0" :0100200000DF $end)" "$target/zeros"
    expect 0 "$(printf 'const unsigned char data[] = {\n\t/* 0x0 */ 0x12, 0x0f\n};')" \
        "$target/120f" c_array
    expect 0 "$(lines 'DEPTH = 1;' 'WIDTH = 8;' 'ADDRESS_RADIX = HEX;' 'DATA_RADIX = HEX;' '' \
        CONTENT BEGIN ' 0: 12;' 'END;')" "$target/12" mif
    expect 1 'refused 4: the image is empty' "$target/empty" c_array
    expect 1 'refused 4: the image is empty' "$target/empty" mif
    expect 1 'refused 5: an address is above 65535' "$target/higher"
    for format in hex c_array mif; do
        expect 1 'refused 1: the image is longer than 2097152 bytes' "$target/longer" $format
    done
    expect 2 "example: $target/none: cannot be opened" "$target/none"
    expect 2 'example: usage: example [FILE [hex | c_array | mif]]' "$target/12" tcgame
}

# The largest files that are not refused: the number of lines that they give. HEX has one for 32
# bytes and the end record, the array one for 16 bytes and two more, MIF one for a byte and 8 more.
run_large() {
    for large in "highest hex $((65536 / 32 + 1))" "longest c_array $((2097152 / 16 + 2))" \
        "longest mif $((2097152 + 8))"; do
        # shellcheck disable=SC2086 # the words are a file, a format and a number
        set -- $large
        runs=$((runs + 1))
        got=$("$program" "$target/$1" "$2" | wc -l)
        [ "$got" -eq "$3" ] || differs "$program $1 $2: $got lines, expected $3"
    done
}

cc --version >/dev/null 2>&1 || not_run "bindings: C" "there is no C compiler"
rm -rf "$target"
mkdir -p "$target"
make_files

languages=C
program=$target/example
# shellcheck disable=SC2086 # the warnings are words
cc -std=c11 $warnings -I "$root/include" "$source" "$library" -o "$program"
run_all
run_large
if c++ --version >/dev/null 2>&1; then
    languages='C and C++'
    program=$target/example++
    # shellcheck disable=SC2086 # the warnings are words
    c++ -std=c++11 $warnings -I "$root/include" -x c++ "$source" -x none "$library" -o "$program"
    run_all
    run_large
else
    left_out "bindings: C++" "there is no C++ compiler"
fi
echo "bindings: $languages: $runs runs, $differences differences"
[ "$differences" = 0 ]
