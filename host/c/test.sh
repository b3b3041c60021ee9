#!/usr/bin/env bash
# Builds the C programs of this folder over the proved library, as C99 and as C++, plain and with the
# compiler's checks at run time, then over an installed copy. What a program prints must be what its
# file .out has. readme.c has in it the very lines of C in the README at the top. Looks at the code of the
# rounding-up division and of asking for the total, and tries './run' too.
# The very last line is 'N passed, M failed'.
set -u -o pipefail
cd "$(dirname "${BASH_SOURCE[0]}")" || exit 2
top=../..

work=$(mktemp -d) || exit 2
trap 'rm -rf "$work"' EXIT

library=(-L "$top/target/staticlib" -ldispatcher_calls -lplan_calls -lknee)
warnings=(-Wall -Wextra -Werror)
checks=(-g "-fsanitize=address,undefined" -fno-sanitize-recover=all)
# shellcheck source=../../tools/trying
. "$top/tools/trying"

# The README has one block of C.
takes_the_lines_of_the_readme() {
    awk '
        /^```/ { inside = 0 }
        inside
        /^```c$/ { inside = 1; blocks++ }
        END { exit blocks != 1 }' "$top/README.md" >"$work/readme.inc"
}

prints() { # EXPECTED COMMAND..
    local expected=$1 status
    shift
    "$@" >"$work/printed"
    status=$?
    diff "$expected" "$work/printed" && return "$status"
}

# Runs what was built last. The programs allocate nothing, so the search for leaks, which fails where
# ptrace is shut, is off.
runs() { # PROGRAM
    prints "$1.out" env ASAN_OPTIONS=detect_leaks=0 timeout 60 "$work/program"
}

as_c() { # PROGRAM FLAGS..
    local program=$1
    shift
    gcc -std=c99 -pedantic "${warnings[@]}" "$@" -I . -I "$work" "$program.c" "${library[@]}" -o "$work/program" &&
        runs "$program"
}

as_cpp() { # PROGRAM FLAGS..
    local program=$1
    shift
    g++ -pedantic "${warnings[@]}" "$@" -I . -I "$work" -x c++ "$program.c" -x none "${library[@]}" -o "$work/program" &&
        runs "$program"
}

# The header alone must do, first in a file and more than once. It is compiled and not only parsed:
# only then does a compiler warn of what is defined and not used, as the header's level block is here.
header_alone() { # COMPILER..
    printf '#include "kilmstra.h"\n#include "kilmstra.h"\nint main(void) { return 0; }\n' |
        "$@" "${warnings[@]}" -I . -c -o "$work/header.o" -
}

# Where a pointer has 32 bits too, a length has 64: with size_t in its place a firmware there would link,
# run and get wrong answers.
has_lengths_of_64_bits() {
    ! grep -w size_t kilmstra.h | grep -v '^ [*]' &&
        printf '%s\n' '#include "kilmstra.h"' \
            'uint64_t kilmstra_pass(uint8_t *, uint64_t, uint32_t, uint8_t);' \
            'uint64_t kilmstra_show(const uint8_t *, uint64_t, uint8_t *, uint64_t);' |
        gcc -m32 -ffreestanding -std=c99 "${warnings[@]}" -I . -fsyntax-only -x c -
}

installs() {
    make -C "$top" --no-print-directory install PREFIX="$work/installed" &&
        cmp kilmstra.h "$work/installed/include/kilmstra.h"
}

# Built in another folder, so that the header can only be the installed one.
over_the_installed_copy() { # PROGRAM
    local flags
    mkdir -p "$work/elsewhere" && cp "$1.c" "$work/elsewhere" || return
    read -ra flags < <(PKG_CONFIG_PATH="$work/installed/lib/pkgconfig" pkg-config --cflags --libs kilmstra)
    gcc -std=c99 "${warnings[@]}" -I "$work" "$work/elsewhere/$1.c" "${flags[@]}" -o "$work/program" &&
        runs "$1"
}

# A firmware may have no C library beyond these.
wants_no_more_than_memory_functions() {
    local wanted
    wanted=$(nm --undefined-only --format=posix "$work/installed/lib/libkilmstra.a") || return
    ! awk 'NF > 1 { print $1 }' <<<"$wanted" | grep -vxE 'memcpy|memmove|memset|memcmp'
}

# The header and the archive have the same calls.
has_the_calls_of_the_header() {
    local there
    there=$(nm --defined-only --extern-only --format=posix "$work/installed/lib/libkilmstra.a") || return
    sed -nE 's/^uint64_t (kilmstra_[a-z_]+)\(.*/\1/p' kilmstra.h | sort >"$work/declared"
    awk '$2 == "T" && /^kilmstra_/ { print $1 }' <<<"$there" | sort >"$work/defined"
    grep -qx kilmstra_queued "$work/declared" && diff "$work/declared" "$work/defined"
}

# How many instructions of a function have such a name.
instructions() { # PATTERN FUNCTION ARCHIVE
    objdump -d --no-show-raw-insn "$top/target/staticlib/lib$3.a" |
        awk -v pattern="^($1)" -v function_line="<$2>:" '
            NF == 0 { inside = 0 }
            inside && $2 ~ pattern { found++ }
            $2 == function_line { inside = seen = 1 }
            END { if (seen) print found + 0 }'
}

# 02, No. 3: the rounding-up division has no jump of any kind, and no call that may hide one. That jumps
# are seen at all, a pass shows.
rounds_up_without_a_branch() {
    local jumps='j|loop|call'
    objdump -d --no-show-raw-insn "$top/target/staticlib/libtime_needed.a"
    [ "$(instructions div time_needed time_needed)" = 1 ] &&
        [ "$(instructions "$jumps" time_needed time_needed)" = 0 ] &&
        [ "$(instructions "$jumps" kilmstra_pass dispatcher_calls)" -gt 0 ]
}

# 02, No. 6: asking for the total goes through no entry. It has no call, and its only jump is that of a
# wrong length, so none of its instructions is done twice; and they are fewer than two for each entry,
# which to load and to add it would take.
asks_without_going_through_the_entries() {
    local all
    objdump -d --no-show-raw-insn "$top/target/staticlib/libdispatcher_calls.a" | grep -A 20 '<kilmstra_queued>:'
    all=$(instructions '.' kilmstra_queued dispatcher_calls)
    [ "$all" -gt 0 ] && [ "$all" -lt 32 ] &&
        [ "$(instructions 'loop|call' kilmstra_queued dispatcher_calls)" = 0 ] &&
        [ "$(instructions j kilmstra_queued dispatcher_calls)" -le 1 ]
}

runs_the_bench_program() {
    { echo 'target/bin/bench < examples/bench.in' && cat "$top/examples/bench.out"; } >"$work/wanted"
    prints "$work/wanted" "$top/run"
}

try 'the header alone, as C99' header_alone gcc -std=c99 -pedantic -x c
try 'the header alone, as C++' header_alone g++ -pedantic -x c++
try 'the header has lengths of 64 bits where a pointer has 32' has_lengths_of_64_bits
try 'the lines of the README' takes_the_lines_of_the_readme
for source in *.c; do
    program=${source%.c}
    try "$program, as C99" as_c "$program"
    try "$program, as C99, checked" as_c "$program" "${checks[@]}"
    try "$program, as C++" as_cpp "$program"
    try "$program, as C++, checked" as_cpp "$program" "${checks[@]}"
done
try 'make install' installs
for source in *.c; do
    try "${source%.c}, over the installed copy" over_the_installed_copy "${source%.c}"
done
try 'the installed archive has the calls of the header' has_the_calls_of_the_header
try 'the installed archive wants no more than memory functions' wants_no_more_than_memory_functions
try 'the rounding-up division has no branch' rounds_up_without_a_branch
try 'asking for the total goes through no entry' asks_without_going_through_the_entries
try './run' runs_the_bench_program

tried
