#!/usr/bin/env bash
# The built programs on a hostile host: each point is brought about, and what was is compared with what
# should be.
#
#     bench/hostile.sh [FOLDER]
#
# The programs are crates/NAME/out/NAME, or FOLDER/NAME where a folder is given; README.md of this folder
# says how they are built. Ends with 1 where anything differs. What a missing tool or right would show is
# told as skipped: strace, flock, python3, and as root a loop device and a small tmpfs.
set -u
cd "$(dirname "$0")/.."
stdio=$(realpath "${1:-crates/qsd_stdio/out}/qsd_stdio") || exit 1
replay=$(realpath "${1:-crates/qsd_replay/out}/qsd_replay") || exit 1
helper=$PWD/bench/hostile.py
tests=$PWD/crates/qs_host/out/qs_host_tests
mkdir -p bench/out
folder=$(mktemp -d "$PWD/bench/out/hostile.XXXXXX")
mounted=
clean_up() {
    if [ -n "$mounted" ]; then umount "$mounted"; fi
    rm -rf "$folder"
}
trap clean_up EXIT
cd "$folder" || exit 1
differ=0

has() { command -v "$1" >/dev/null 2>&1; }

skip() { echo "skipped: $1"; }

# check WHAT SHOULD WAS: compares and tells.
check() {
    if [ "$2" = "$3" ]; then
        echo "ok: $1: $3"
    else
        echo "DIFFERS: $1: should be $2, was $3"
        differ=1
    fi
}

# told WHAT WORDS: the words stand in the line behind the one with the exit status.
told() {
    if sed -n '2p' told | grep -qF -- "$2"; then
        echo "ok: $1: $(sed -n '2p' told)"
    else
        echo "DIFFERS: $1: should say $2, said $(tr '\n' '|' <told)"
        differ=1
    fi
}

# A fresh image of 64 blocks, each of whose bytes tells its block, and a copy of it.
fresh() {
    for i in $(seq 0 63); do head -c 512 /dev/zero | tr '\0' "\\$(printf '%03o' $((i + 32)))"; done >disk.img
    cp disk.img copy.img
}

same() { if cmp -s "$1" "$2"; then echo same; else echo other; fi; }

# request TYPE COOKIE BLOCK BLOCKS: the head of a request on whole blocks, to standard output.
request() {
    printf '%b' "$(printf '256095130000%04x%016x%016x%08x' "$1" "$2" $(($3 * 512)) $(($4 * 512)) | sed 's/../\\x&/g')"
}

# blocks LETTER COUNT: so many blocks of one letter, or of \NNN in octal.
blocks() { head -c $(($2 * 512)) /dev/zero | tr '\0' "$1"; }

read_one() { request 0 1 0 1; }
write_one() {
    request 1 1 0 1
    blocks Z 1
}
disc() { request 2 9 0 0; }

# errors: the error numbers of the simple replies without data in the file output, in order.
errors() {
    od -A n -v -t x1 -w16 output | while read -r _ _ _ _ a b c d _; do printf '%d ' "0x$a$b$c$d"; done | sed 's/ $//'
}

words=(--transmission disk.img)
fresh
read_one >read
write_one >write
{ write_one; disc; } >write_disc

echo "-- closed standard streams: the image keeps its bytes, and its number is none of theirs"
status=0
"$stdio" "${words[@]}" <&- >output 2>told || status=$?
check "standard input is closed" "4 same" "$status $(same disk.img copy.img)"
told "standard input is closed" "standard input can't be read"
status=0
"$stdio" "${words[@]}" <read >&- 2>told || status=$?
check "standard output is closed" "5 same" "$status $(same disk.img copy.img)"
told "standard output is closed" "standard output can't be written"
status=0
"$stdio" "${words[@]}" <read >output 2>&- || status=$?
check "standard error is closed" "0 528 same" "$status $(stat -c %s output) $(same disk.img copy.img)"
status=0
"$stdio" --transmission missing.img <read >output 2>&- || status=$?
check "standard error is closed, and there is no image" "18" "$status"
status=0
"$stdio" "${words[@]}" <read >&- 2>&- || status=$?
check "output and error are closed" "5 same" "$status $(same disk.img copy.img)"
status=0
"$stdio" "${words[@]}" <&- >&- 2>&- || status=$?
check "all three are closed" "4 same" "$status $(same disk.img copy.img)"
status=0
"$replay" <&- >output 2>told || status=$?
check "qsd_replay: standard input is closed" "4" "$status"
status=0
echo "session A disk" | "$replay" >&- 2>told || status=$?
check "qsd_replay: standard output is closed" "5" "$status"
if has strace; then
    strace -f -e trace=pwrite64 -o traced "$stdio" "${words[@]}" <write 2>&- >&-
    check "the least number of the image's handles with output and error closed" "3 or more" \
        "$(sed -n 's/.*pwrite64(\([0-9]*\),.*/\1/p' traced | sort -n | head -n 1 |
            awk '{print $1 < 3 ? $1 : "3 or more"}')"
    fresh
else
    skip "the numbers of the image's handles (no strace)"
fi

echo "-- only an image is opened"
refused() {
    local status=0
    timeout 10 "$stdio" --transmission "$2" <read >output 2>told || status=$?
    check "$1" "18" "$status"
    told "$1" "$3"
}
mkfifo pipe
ln -s disk.img link.img
ln -s loop.img loop.img
ln -s missing.img dangling.img
refused "a pipe" pipe '"pipe": it is a pipe'
refused "a directory" . '".": it is a directory'
refused "a character device" /dev/null '"/dev/null": it is a character device'
refused "a device that never ends" /dev/zero '"/dev/zero": it is a character device'
refused "no such file" missing.img '"missing.img": No such file or directory'
refused "a link to no file" dangling.img '"dangling.img": No such file or directory'
refused "a link to itself" loop.img '"loop.img": Too many levels of symbolic links'
refused "a path through a file" disk.img/x '"disk.img/x": Not a directory'
refused "a path of control characters" $'a\nb' '"a\nb": No such file'
if has python3; then
    python3 -c 'import socket; socket.socket(socket.AF_UNIX).bind("socket")'
    refused "a socket" socket '"socket": it is a socket'
fi
status=0
"$stdio" --transmission link.img <read >output 2>told || status=$?
check "a link to an image" "0 528" "$status $(stat -c %s output)"
if [ "$(id -u)" = 0 ] && has losetup && loop=$(losetup -f --show disk.img 2>/dev/null); then
    status=0
    { request 1 1 63 1; blocks Y 1; request 0 2 63 1; request 0 3 64 1; } |
        "$stdio" --transmission "$loop" >output 2>told || status=$?
    check "a block device of 64 blocks: its last block, and one past it" "0 Y 22" \
        "$status $(head -c 33 output | tail -c 1) $((16#$(tail -c 12 output | head -c 4 | od -A n -t x1 | tr -d ' ')))"
    losetup -d "$loop"
    fresh
else
    skip "a block device (no loop device)"
fi
status=0
(ulimit -n 5; exec "$stdio" "${words[@]}") <read >output 2>told || status=$?
check "too few file handles" "18" "$status"
told "too few file handles" '"disk.img": Too many open files'

echo "-- one file, also where the path is given to another meanwhile"
mkfifo in
"$stdio" "${words[@]}" <in >output 2>told &
serving=$!
exec 3>in
write_one >&3
until [ "$(stat -c %s output)" = 16 ]; do sleep 0.05; done
mv disk.img moved.img
cp copy.img disk.img
{ request 1 2 16 1; blocks Z 1; request 1 3 33 1; blocks Z 1; disc; } >&3
exec 3>&-
wait "$serving"
check "writes before and after a rename are all in the renamed file" "0 ZZZ same" \
    "$? $(for b in 0 16 33; do tail -c +$((b * 512 + 1)) moved.img | head -c 1; done) $(same disk.img copy.img)"
rm -f moved.img

echo "-- locked"
"$stdio" "${words[@]}" <in >output 2>told_first &
serving=$!
exec 3>in
read_one >&3
until [ "$(stat -c %s output)" = 528 ]; do sleep 0.05; done
refused "another program serves the image" disk.img '"disk.img": the image is in use: another program has locked it'
exec 3>&-
wait "$serving"
if has flock; then
    for how in -x -s; do
        (
            exec 9<disk.img
            flock "$how" 9
            : >held
            exec sleep 30
        ) &
        holder=$!
        until [ -e held ]; do sleep 0.05; done
        refused "a lock that flock $how holds" disk.img 'the image is in use'
        kill "$holder"
        wait "$holder" 2>/dev/null
        rm held
    done
else
    skip "a lock of flock (no flock)"
fi
status=0
"$stdio" "${words[@]}" <read >output 2>told || status=$?
check "once the others have ended" "0 528" "$status $(stat -c %s output)"

echo "-- interrupted calls are tried again, and a stream that isn't ready is waited for"
hindered() {
    local status=0
    fresh
    strace -f -o traced -P "$PWD/$2" -e trace="$3" -e inject="$3:error=EINTR:when=1+2" \
        "$stdio" "${words[@]}" <write_read >output 2>told || status=$?
    check "$1" "0 1072 Z yes" \
        "$status $(stat -c %s output) $(head -c 1 disk.img) $(grep -q INJECTED traced && echo yes || echo no)"
}
{ write_one; read_one; read_one; disc; } >write_read
if has strace; then
    : >output
    hindered "interrupted reads of the input" write_read read
    hindered "interrupted writes of the output" output write
    hindered "interrupted reads of the image" disk.img pread64
    hindered "interrupted writes of the image" disk.img pwrite64
else
    skip "interrupted calls (no strace)"
fi
fresh
if has python3; then
    for kind in pipe socket; do
        check "a non-blocking $kind as input and output, both slow" "0 all idle" \
            "$(python3 "$helper" "$kind" "$stdio" "${words[@]}")"
    done
else
    skip "non-blocking streams (no python3)"
fi

echo "-- at an orderly end nothing is left in the program"
for i in $(seq 0 199); do
    request 1 "$i" $((i % 64)) 1
    blocks "\\$(printf '%03o' $((i % 64 + 48)))" 1
done >writes
for i in $(seq 0 63); do blocks "\\$(printf '%03o' $((i + 48)))" 1; done >wanted
status=0
"$stdio" "${words[@]}" <writes >output 2>told || status=$?
check "200 writes and the input's end" "0 3200 same" "$status $(stat -c %s output) $(same disk.img wanted)"
fresh
{ cat writes; disc; } >writes_disc
status=0
cat writes_disc | "$stdio" "${words[@]}" 2>told | cat >output
check "200 writes and a DISC, through pipes" "3200 same" "$(stat -c %s output) $(same disk.img wanted)"
fresh

echo "-- refused stores and replies"
status=0
"$stdio" "${words[@]}" <read >/dev/full 2>told || status=$?
check "a full device as output" "5" "$status"
told "a full device as output" "standard output can't be written: No space left on device"
status=0
{ "$stdio" "${words[@]}" <read 2>told; echo "$?" >ended; } | :
check "a reader that is gone" "5" "$(cat ended)"
status=0
{ request 1 1 0 1; blocks Z 1; request 1 2 8 1; blocks Z 1; request 1 3 1 1; blocks Z 1; } >three
(trap '' XFSZ; ulimit -f 4; exec "$stdio" "${words[@]}" <three >output 2>told) || status=$?
check "a limit of 4 KiB: a write below it, one above, one below" "0 (0 5 0)" "$status ($(errors))"
fresh
mkdir small
if [ "$(id -u)" = 0 ] && mount -t tmpfs -o size=64k none small 2>/dev/null; then
    mounted=$PWD/small
    truncate -s 1M small/disk.img
    status=0
    { request 1 1 0 256; blocks Z 256; request 1 2 0 1; blocks Y 1; } |
        "$stdio" --transmission small/disk.img >output 2>told || status=$?
    check "a full file system: a write of 128 KiB, then one of a block" "0 (5 0) Y" \
        "$status ($(errors)) $(head -c 1 small/disk.img)"
    umount "$mounted"
    mounted=
else
    skip "a full file system (no right to mount)"
fi

echo "-- syncs: one covers what was stored through all handles, and one that failed isn't forgotten"
# syncs WHAT SHOULD INJECTED: runs one test of qs_host, which syncs eight disks three times over.
syncs() {
    rm -f sync_test.img
    strace -f -o traced -e trace=fdatasync ${3:+-e inject=fdatasync:error=EIO:when=$3} \
        "$tests" tests::a_failed_sync_is_remembered >output 2>&1
    check "$1" "$2" "$(grep -o 'synced [0-9 ]*' output), $(grep -c 'fdatasync(' traced) calls"
}
if [ -x "$tests" ] && has strace; then
    syncs "eight disks stored and synced, synced, one stored and all synced" "synced 8 8 8, 2 calls" ""
    syncs "the first call fails" "synced 0 0 0, 1 calls" 1
    syncs "the second call fails" "synced 8 8 3, 2 calls" 2
else
    skip "syncs (no strace, or no qs_host_tests: run rt test in crates/qs_host)"
fi
head -c 131072 /dev/zero >flush.img
flush() { request 3 "$1" 0 0; }
flush 1 | "$stdio" --transmission flush.img >output 2>told
if [ "$(errors)" != 0 ]; then
    skip "flushes: qsd_stdio answers FLUSH with error $(errors) so far"
elif ! has strace; then
    skip "flushes (no strace)"
else
    eight() { for s in 0 1 2 3 4 5 6 7; do request 1 "$s" $((s * 16)) 1; blocks Z 1; done; }
    { eight; flush 8; flush 9; request 1 9 17 1; blocks Y 1; flush 10; } >flushes
    strace -f -o traced -e trace=fdatasync "$stdio" --transmission flush.img <flushes >output 2>told
    check "eight stripes stored and flushed, flushed again, one stored and flushed" "2 calls" \
        "$(grep -c 'fdatasync(' traced) calls"
    strace -f -o traced -e trace=fdatasync -e inject=fdatasync:error=EIO:when=1 \
        "$stdio" --transmission flush.img <flushes >output 2>told
    check "a flush that failed, and those behind it" "0 0 0 0 0 0 0 0 5 5 0 5" "$(errors)"
fi

echo "-- words"
# says STATUS WORDS INPUT OUTPUT WORD..: the exit status, its line, and the line in words.
says() {
    local wanted=$1 text=$2 input=$3 output=$4 status=0
    shift 4
    "$program" "$@" <"$input" >"$output" 2>told || status=$?
    check "$name $*" "$wanted $name: status $wanted" "$status $(head -n 1 told)"
    told "$name $*" "$name: $text"
}
: >empty
head -c 27 read >cut
printf '\x25\x60\x95\x14' >magic
printf '%b' "$(printf '2560951300000001%016x%016x02000001' 1 0 | sed 's/../\\x&/g')" >long
head -c 700 /dev/zero >odd.img
truncate -s $(((1 << 40) + 512)) large.img
name=qsd_stdio program=$stdio
says 2 "a word is missing" empty output
says 2 "a word is missing" empty output --transmission
says 2 "the word \"--foo\" isn't understood" empty output --foo disk.img
says 2 "a word is missing" empty output --transmission --read-only --align
says 2 "the word \"1024\" isn't understood" empty output --transmission --align 1024 disk.img
says 2 "the word \"--read-only\" isn't understood" empty output --read-only --transmission --read-only disk.img
says 2 "the word \"more\" isn't understood" empty output --transmission disk.img more
says 2 "a word isn't text in UTF-8" empty output --transmission $'\xff'
says 3 '"odd.img": its length, 700 bytes, is no multiple of 512' empty output --transmission odd.img
says 3 '"odd.img": its length, 700 bytes, is no multiple of 4096' empty output --transmission --align 4096 odd.img
says 3 '"large.img": its length, 1099511628288 bytes, is over 2^40' empty output --transmission large.img
says 4 "standard input can't be read: Is a directory" . output "${words[@]}"
says 5 "standard output can't be written: No space left on device" read /dev/full "${words[@]}"
says 10 "the input ended within a message" cut output "${words[@]}"
says 11 "a message begins with the magic number 25609514" magic output "${words[@]}"
says 14 "a message of 33554433 bytes is too long" long output "${words[@]}"
says 18 '"missing.img": No such file or directory (os error 2)' empty output --transmission missing.img
name=qsd_replay program=$replay
echo "session A disk" >script
printf 'session A disk\njump\n' >bad
printf 'session A disk\nstep A.1\n' >early
says 2 "the word \"--foo\" isn't understood" script output --foo
says 2 "the word \"0\" isn't understood" script output --blocks 0
says 2 "the word \"--blocks\" isn't understood" script output --blocks 8 --blocks 9
says 2 "a word is missing" script output --blocks 8 --align
says 4 "standard input can't be read: Is a directory" . output
says 5 "standard output can't be written: No space left on device" script /dev/full
says 6 "line 2 isn't understood" bad output
says 7 "line 2: its event can't come now" early output
for name in qsd_stdio qsd_replay; do
    if [ "$name" = qsd_stdio ]; then program=$stdio; else program=$replay; fi
    for word in --help --version; do
        status=0
        "$program" "$word" <empty >output 2>told || status=$?
        check "$name $word" "0 $name 0" "$status $(grep -o -m 1 "$name" output | head -n 1) $(stat -c %s told)"
        says 5 "standard output can't be written: No space left on device" empty /dev/full "$word"
    done
done
if [ "$differ" = 0 ]; then echo "All is as it should be."; else echo "NOT all is as it should be."; fi
exit "$differ"
