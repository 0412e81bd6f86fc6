#!/usr/bin/env bash
# The main job, shown: a WRITE, a READ of it, a READ that is refused, and DISC, over a new image of 1 MiB.
#
#     bench/demo.sh
#
# Builds the program first where it isn't built, which takes minutes on a fresh clone since the build
# proves it. Exits with 1 where the answers, the exit status or the image aren't what they should be.
set -eu
cd "$(dirname "$0")/.."
out=$PWD/bench/out
program=$PWD/crates/qsd_stdio/out/qsd_stdio

# Builds the program where it isn't up to date. `rt run` also runs it, here on an input that is empty
# at once, which ends with status 0.
build_program() {
    echo "Building crates/qsd_stdio (on a fresh clone this proves it, and takes minutes) ..."
    local words=(--transmission "$folder/disk.img")
    if ! (cd crates/qsd_stdio && rt run -- "${words[@]}") >"$out/build.log" 2>&1 </dev/null; then
        tail -n 5 "$out/build.log"
        echo "The program wasn't built; bench/out/build.log says more."
        exit 1
    fi
}

# Writes bytes that are given in hexadecimal, with spaces.
bytes() {
    printf '%b' "$(printf '%s' "$1" | sed 's/ //g; s/../\\x&/g')"
}

# The data of the WRITE: 32 times the 16 letters of a line, so 512 bytes.
data() {
    for _ in $(seq 32); do printf 'stored by a demo'; done
}

# Sends a message: shows it, and adds it to the input.
send() {
    echo "    $2   $1"
    bytes "$2" >>input
}

# The next so many bytes of the output, in hexadecimal.
seen=0
next_bytes() {
    tail -c "+$((seen + 1))" output | head -c "$1" | od -A n -v -t x1 | tr -d ' \n'
}

# Shows the next reply: 16 bytes of head, what they say, and so many bytes of data.
show_reply() {
    local head
    head=$(next_bytes 16)
    seen=$((seen + 16))
    if [ "${#head}" -lt 32 ]; then
        echo "    no reply to the $1"
        return
    fi
    echo "    ${head:0:8} ${head:8:8} ${head:16:16}   to the $1: error $((16#${head:8:8}))"
    if [ "$2" -gt 0 ]; then
        tail -c "+$((seen + 1))" output | head -c "$2" | od -A n -t x1z | sed 's/^/       /'
        seen=$((seen + $2))
    fi
}

mkdir -p "$out"
folder=$(mktemp -d "$out/demo.XXXXXX")
trap 'rm -rf "$folder"' EXIT
head -c 1048576 /dev/zero >"$folder/disk.img"
build_program
cd "$folder"
cp disk.img disk.wanted
: >input

echo
echo "disk.img: 1,048,576 bytes, all zeros. Command: qsd_stdio --transmission disk.img"
echo
echo "What goes in (magic, flags, type, cookie, offset, length; * says that the line above comes again):"
send "WRITE of 512 bytes at 4096, with its data:" "25609513 0000 0001 0000000000000001 0000000000001000 00000200"
data >>input
data | od -A n -t x1z | sed 's/^/       /'
send "READ of 512 bytes at 4096" "25609513 0000 0000 0000000000000002 0000000000001000 00000200"
send "READ of 512 bytes at 1048576" "25609513 0000 0000 0000000000000003 0000000000100000 00000200"
send "DISC" "25609513 0000 0002 0000000000000004 0000000000000000 00000000"

status=0
"$program" --transmission disk.img <input >output || status=$?

echo
echo "What comes out (magic, error, cookie; error 22 is EINVAL, here since the image ends at 1048576):"
show_reply "WRITE at 4096" 0
show_reply "READ at 4096" 512
show_reply "READ at 1048576" 0
echo "    exit status $status"
echo
echo "disk.img afterwards (the places are hexadecimal):"
od -A x -t x1z disk.img | sed 's/^/    /'
echo

# The same, compared with what it should be.
{
    bytes "67446698 00000000 0000000000000001"
    bytes "67446698 00000000 0000000000000002"
    data
    bytes "67446698 00000016 0000000000000003"
} >output.wanted
data | dd of=disk.wanted bs=512 seek=8 conv=notrunc status=none
if [ "$status" -eq 0 ] && cmp output output.wanted && cmp disk.img disk.wanted; then
    echo "The answers, the exit status and the image are as they should be."
else
    echo "NOT as it should be."
    exit 1
fi
