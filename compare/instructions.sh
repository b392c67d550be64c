#!/bin/sh
# The instructions of a call on each side, counted by valgrind's callgrind: the difference of two runs that do an
# operation few and many times, so that all that comes before falls away. For bulk moves: of one vector.
# Use: ./instructions.sh [the built benchmark]
set -eu
program=${1:-target/release/benchmark}

# All instructions of one run: line, side, times.
count() {
    valgrind --tool=callgrind --callgrind-out-file=/dev/null "$program" run "$1" "$2" "$3" 2>&1 |
        sed -n 's/^==.*Collected : *\([0-9]*\).*/\1/p'
}

# The instructions of one call on a side: line, side, few, many, vectors.
each() {
    few=$(count "$1" "$2" "$3")
    many=$(count "$1" "$2" "$4")
    echo "$few $many $3 $4 $5" | awk '{ printf "%.1f", ($2 - $1) / ($4 - $3) / $5 }'
}

printf '%-18s %5s %9s %10s %10s %7s\n' operation order vectors cgmath Migthumo ratio
"$program" list | while read -r line name order vectors few many; do
    theirs=$(each "$line" cgmath "$few" "$many" "$vectors")
    ours=$(each "$line" migthumo "$few" "$many" "$vectors")
    ratio=$(echo "$theirs $ours" | awk '{ printf "%.2f", $2 / $1 }')
    printf '%-18s %5s %9s %10s %10s %7s\n' "$name" "$order" "$vectors" "$theirs" "$ours" "$ratio"
done
