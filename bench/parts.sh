#!/usr/bin/env bash
# The cost of single operations of the core's parts: runs the built program qs_bench with each kind of
# work, and takes off what a run without rounds costs.
#
#     bench/parts.sh [--instructions] [--before PROGRAM] [ROUNDS [RUNS]]
#
# The processor time of a round in nanoseconds, by the median of RUNS runs (5) of ROUNDS rounds
# (1,000,000); the kinds take turns. With --instructions it is how many instructions a round executes, of
# one run of ROUNDS rounds (10,000) under valgrind, which other work on the machine doesn't change. With
# --before an earlier build takes turns with the program, at the kinds that it knows.
#
# Build the program first:
#
#     (cd crates/qs_bench && rt run)
set -eu
cd "$(dirname "$0")/.."
program=crates/qs_bench/out/qs_bench
before=
measure=time_of
while true; do
    case ${1:-} in
    --instructions) measure=instructions_of && shift ;;
    --before) before=$2 && shift 2 ;;
    *) break ;;
    esac
done
if [ $measure = time_of ]; then
    rounds=${1:-1000000} runs=${2:-5} what="nanoseconds, the median of $runs runs"
else
    rounds=${1:-10000} runs=1 what=instructions
fi
TIMEFORMAT='%U %S'
for file in "$program" ${before:+"$before"}; do
    if [ ! -x "$file" ]; then
        echo "$file isn't there; build it by: (cd crates/qs_bench && rt run)"
        exit 1
    fi
done

# The processor time that a run of so many rounds takes, in nanoseconds.
time_of() {
    { time "$@" >/dev/null; } 2>&1 | awk '{ printf "%d\n", ($1 + $2) * 1000000000 }'
}

# How many instructions it executes.
instructions_of() {
    valgrind --tool=callgrind --callgrind-out-file=/dev/null "$@" 2>&1 >/dev/null | awk '/Collected/ { print $4 }'
}

# Whether a program does a kind of work as it should.
does() {
    [ "$("$1" "$2" 1000)" = "$2: 1000 of 1000" ]
}

# One run of a program at a kind of work with rounds and one without, noted under a name.
note_runs() {
    $measure "$1" "$2" 0 >>"$folder/$3.$2.empty"
    $measure "$1" "$2" "$rounds" >>"$folder/$3.$2.full"
}

# The median of the numbers of a file, one a line.
median() {
    sort -n "$1" | awk '{ all[NR] = $1 } END { print all[int((NR + 1) / 2)] }'
}

# What a round costs that was noted under a name; the word none where nothing was.
round_of() {
    if [ ! -e "$folder/$1.$2.full" ]; then
        echo none
        return
    fi
    awk -v full="$(median "$folder/$1.$2.full")" -v empty="$(median "$folder/$1.$2.empty")" \
        -v rounds="$rounds" 'BEGIN { printf "%.0f\n", (full - empty) / rounds }'
}

# A row: what the work is called, its kind, and the kind whose cost is in it.
row() {
    local name cells="" cost less
    for name in now ${before:+before}; do
        cost=$(round_of "$name" "$2")
        if [ -n "${3:-}" ] && [ "$cost" != none ]; then
            less=$(round_of "$name" "$3")
            cost=$((cost - less))
        fi
        [ "$cost" != none ] || cost=""
        cells="$cells $cost |"
    done
    echo "| $1 |$cells"
}

kinds="seat list start load store admit admit16 admit256 burst go"
for kind in $kinds; do
    does "$program" "$kind" || { echo "NOT as it should be: $kind" && exit 1; }
done
folder=$(mktemp -d)
trap 'rm -rf "$folder"' EXIT
for _ in $(seq "$runs"); do
    for kind in $kinds; do
        note_runs "$program" "$kind" now
        if [ -n "$before" ] && does "$before" "$kind"; then
            note_runs "$before" "$kind" before
        fi
    done
done
echo "255 other requests listed; $rounds rounds, in $what:"
echo
echo "| operation | now |${before:+ before |}"
echo "|---|---:|${before:+---:|}"
row "Enter and End" seat
row List list seat
row Start start list
row "Load of 4096 bytes" load
row "Store of 4096 bytes" store
row "Admit, 1 request waits" admit
row "Admit, 16 requests wait" admit16
row "Admit, 256 requests wait" admit256
row "Admit, held back by a burst" burst
row "Queue, and Admit that goes" go
