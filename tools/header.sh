#!/bin/sh
# Fails unless include/migthumo.h compiles as C99, C11, C17 and C++11 without a warning.
#
# Usage: tools/header.sh        it runs cc and c++, and writes no file
#
# - At each standard: the header alone, as the first thing that is included, and twice; then the C program of its tests.
# - Every function that answers a refusal is marked MIGTHUMO_MUST_USE; GCC and Clang warn where an answer is dropped.
cd "$(dirname "$0")/.." || exit 1
header=include/migthumo.h program=include/test/migthumo_test.c
warnings="-Wall -Wextra -Wpedantic -Wconversion -Wshadow -Wundef -Werror"
bad=0 compiled=0 marked=0

# Says what failed.
fails() {
    echo "FAILED: $1"
    bad=$((bad + 1))
}

# Compiles at a standard what is named, standard input being '-', after further flags. A warning is an error; what is
# made is dropped.
compile() {
    standard=$1
    shift
    # shellcheck disable=SC2086
    case $standard in
        c++*) c++ -x c++ -std="$standard" $warnings -Iinclude -S -o - "$@" ;;
        *) cc -x c -std="$standard" $warnings -Wstrict-prototypes -Iinclude -S -o - "$@" ;;
    esac >/dev/null
}

twice='#include "migthumo.h"
#include "migthumo.h"
int main(void) { return migthumo_version() != MIGTHUMO_VERSION; }'
gnu='#if !defined(__GNUC__) && !defined(__clang__)
#error neither GCC nor Clang
#endif
int gnu;'
dropped='#include "migthumo.h"
void drops(double *out);
void drops(double *out) { migthumo_from_angle(0.0, 1.0, out, 4); }'

for each in c99 c11 c17 c++11; do
    compile $each $header || fails "$header as $each"
    echo "$twice" | compile $each - || fails "$header twice as $each"
    compile $each $program || fails "$program as $each"
    compiled=$((compiled + 3))
    # With GCC and Clang the dropped answer, and nothing else, is what is wrong with this program.
    echo "$dropped" | compile $each -Wno-unused-result - || fails "a program that drops an answer as $each"
    if echo "$gnu" | compile $each - 2>/dev/null && echo "$dropped" | compile $each - 2>/dev/null; then
        fails "no warning where an answer is dropped as $each"
    fi
done

while IFS= read -r line; do
    case $line in
        "MIGTHUMO_MUST_USE uint32_t migthumo_"*) marked=$((marked + 1)) ;;
        "uint32_t migthumo_version(void);") ;;
        *"uint32_t migthumo_"*) fails "not marked MIGTHUMO_MUST_USE: $line" ;;
    esac
done <$header
[ $marked -gt 0 ] || fails "no function is marked MIGTHUMO_MUST_USE"

echo "$compiled compilations as C99, C11, C17 and C++11, $marked functions marked, $bad failures"
[ $bad -eq 0 ]
