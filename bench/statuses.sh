#!/usr/bin/env bash
# The exit statuses of the built program: each is brought about, and the number and the first line on
# standard error are compared with README.md's table. A line in words follows it; hostile.sh tries those.
#
#     bench/statuses.sh [PROGRAM]
#
# PROGRAM is crates/qsd_stdio/out/qsd_stdio where none is given; README.md of this folder says how it is
# built. Exits with 1 where a status or a line differs. Status 8 would take 2^32 requests, and 9 wants
# memory refused; neither is tried here.
set -eu
cd "$(dirname "$0")/.."
program=$(realpath "${1:-crates/qsd_stdio/out/qsd_stdio}")
mkdir -p bench/out
folder=$(mktemp -d "$PWD/bench/out/statuses.XXXXXX")
trap 'rm -rf "$folder"' EXIT
cd "$folder"
head -c 4096 /dev/zero >disk.img
head -c 700 /dev/zero >odd.img
truncate -s $(((1 << 40) + 512)) large.img
wrong=0

# Writes a request's head: flags and type, offset, length, in hexadecimal.
head_of() {
    printf '%b' "$(printf '25609513%s0000000000000001%s%s' "$1" "$2" "$3" | sed 's/../\\x&/g')"
}

# Nothing follows where nothing was told, and else a second line.
told_in_words() { [ ! -s told ] || [ "$(wc -l <told)" -ge 2 ]; }

# try STATUS WHAT INPUT OUTPUT WORD..: runs the program and compares.
try() {
    local wanted=$1 what=$2 input=$3 output=$4 status=0
    shift 4
    "$program" "$@" <"$input" >"$output" 2>told || status=$?
    if [ "$wanted" -eq 0 ]; then : >line; else echo "qsd_stdio: status $wanted" >line; fi
    head -n 1 told >first
    if [ "$status" -eq "$wanted" ] && cmp -s first line && told_in_words; then
        echo "status $wanted: $what"
    else
        echo "NOT status $wanted but $status: $what"
        wrong=1
    fi
}

# Requests: a READ of block 0, a DISC, a part of a READ, a wrong magic, a WRITE of 33,554,433 bytes.
: >empty
head_of 00000000 0000000000000000 00000200 >read
head_of 00000002 0000000000000000 00000000 >disc
head -c 27 read >cut
printf '\x25\x60\x95\x14' >magic
head_of 00000001 0000000000000000 02000001 >long
printf '\0\0\0\x04' >flags
printf '\0\0\0\0IHAVEOPT\0\0\0\x03\0\0\0\0' >unfixed
printf '\0\0\0\x01IHAVEOPT\0\0\0\x01\0\0\0\x03foo' >other
printf '\0\0\0\x01IHAVEOPT\0\0\0\x02\0\0\0\0' >abort
words=(--transmission disk.img)

try 0 "a DISC" disc output "${words[@]}"
try 0 "the input's end between requests" read output "${words[@]}"
try 0 "an image that is read-only, in blocks of 4096 bytes" read output --align 4096 --read-only "${words[@]}"
try 2 "no word" empty output
try 2 "no IMAGE" empty output --transmission
try 2 "no number behind --align" empty output --transmission --align
try 2 "an option that stands twice" empty output --read-only --read-only "${words[@]}"
try 2 "a word too many" empty output "${words[@]}" disk.img
try 2 "a word that isn't UTF-8" empty output --transmission $'\xff'
try 3 "an image of 700 bytes" empty output --transmission odd.img
try 3 "an image of 2^40 + 512 bytes" empty output --transmission large.img
try 4 "an input that can't be read" . output "${words[@]}"
try 5 "an output that can't be written" read /dev/full "${words[@]}"
try 10 "the input's end within a request" cut output "${words[@]}"
try 11 "a wrong magic" magic output "${words[@]}"
try 0 "an ABORT" abort output disk.img
try 12 "flags that aren't known" flags output disk.img
try 13 "an option of a client without fixed newstyle" unfixed output disk.img
try 15 "EXPORT_NAME of another export" other output disk.img
try 14 "a WRITE that is too long" long output "${words[@]}"
try 18 "no such file" empty output --transmission missing.img
try 18 "a folder for an image" empty output --transmission .
try 0 "the question for help" empty output --help
try 0 "the question for the version" empty output --version
exit "$wrong"
