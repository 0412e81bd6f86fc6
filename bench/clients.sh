#!/usr/bin/env bash
# Real clients against qsd_stdio: libnbd runs it on its standard streams, and socat stands between it and the
# tools that want a socket.
#
#     bench/clients.sh [PROGRAM]
#
# One line a step, and the status is 1 where one isn't as it should be. A step whose tool is missing is
# skipped. Debian's packages: libnbd-bin, python3-libnbd, socat, fio, qemu-utils.
set -u
cd "$(dirname "$0")/.."
program=$(realpath "${1:-crates/qsd_stdio/out/qsd_stdio}")
if [ ! -x "$program" ]; then
    echo "$program isn't there; build it by: (cd crates/qsd_stdio && rt run)"
    exit 1
fi
folder=$PWD/bench/out/clients
rm -rf "$folder"
mkdir -p "$folder"
cd "$folder" || exit 1
failed=0

# Whether the tools are there; says which isn't.
has() {
    local tool
    for tool in "$@"; do
        if ! command -v "$tool" >/dev/null; then
            echo "skipped, $tool isn't there"
            return 1
        fi
    done
}

# Tells how a step ended.
told() {
    if [ "$2" = 0 ]; then
        echo "ok: $1"
    else
        echo "FAILED: $1"
        failed=1
    fi
}

# Runs a command with $uri, the address of a socket whose clients are each served by a program of their own
# over an image.
through() {
    local server status
    rm -f nbd.sock
    socat "UNIX-LISTEN:nbd.sock,fork" "EXEC:$program $1" 2>>socat.log &
    server=$!
    for _ in $(seq 100); do
        [ -S nbd.sock ] && break
        sleep 0.05
    done
    uri="nbd+unix:///disk?socket=$folder/nbd.sock" timeout 120 bash -c "$2"
    status=$?
    kill $server
    wait $server 2>/dev/null
    return $status
}

# The python that has libnbd.
python=
for each in python3 /usr/bin/python3; do
    if "$each" -c 'import nbd' 2>/dev/null; then
        python=$each
        break
    fi
done

truncate -s 64M disk.img
head -c 67108864 /dev/urandom >source.img

if has socat nbdinfo; then
    through disk.img 'nbdinfo "$uri"' >info 2>&1
    told "nbdinfo" $?
    grep -E 'export-size|is_read_only|can_flush|can_fua|can_trim|can_zero|can_df' info
    through disk.img 'nbdinfo --list "$uri"' >list 2>&1
    told "nbdinfo --list" $?
    grep -E 'export=' list
fi

if has socat nbdcopy; then
    through disk.img "nbdcopy --connections=1 $folder/source.img \"\$uri\"" >copied 2>&1 && cmp -s source.img disk.img
    told "nbdcopy into the image, compared byte for byte" $?
    through disk.img "nbdcopy --connections=1 \"\$uri\" $folder/out.img" >>copied 2>&1 && cmp -s source.img out.img
    told "nbdcopy out of it" $?
fi

# libnbd with the program on its standard streams, with structured replies and without.
session() {
    "$python" - "$program" "$1" <<'PYTHON'
import errno, sys
import nbd

program, structured = sys.argv[1], sys.argv[2] == "structured"
h = nbd.NBD()
h.set_request_structured_replies(structured)
h.set_export_name("disk")
h.set_strict_mode(0)
h.connect_command([program, "--align", "4096", "disk.img"])
size = h.get_size()
assert size == 64 << 20, size
assert h.get_structured_replies_negotiated() == structured


def whole():
    return b"".join(h.pread(1 << 24, at) for at in range(0, size, 1 << 24))


image = bytearray(whole())


def put(data, at, flags=0):
    h.pwrite(data, at, flags)
    image[at:at + len(data)] = data


put(b"\x11" * 5000, 1237)
put(b"\x22", 4095)
put(bytes(range(256)) * 2048, 777_777, nbd.CMD_FLAG_FUA)
h.flush()
h.zero(100_001, 800_003)
image[800_003:900_004] = bytes(100_001)
h.zero(4096, 8192, nbd.CMD_FLAG_NO_HOLE)
image[8192:12288] = bytes(4096)
h.trim(4096, 16384)
for at, count in [(0, 1 << 20), (1, 4097), (799_999, 101_000), (size - 7, 7)]:
    assert h.pread(count, at) == image[at:at + count], at


def refused(call, wanted):
    try:
        call()
    except nbd.Error as e:
        assert e.errnum == wanted, (e.errnum, wanted)
        return
    raise AssertionError("not refused")


refused(lambda: h.pread(2, size - 1), errno.EINVAL)
refused(lambda: h.pwrite(b"ab", size - 1), errno.ENOSPC)
refused(lambda: h.zero(2, size - 1), errno.ENOSPC)
refused(lambda: h.trim(2, size - 1), errno.EINVAL)
assert whole() == image
h.shutdown()
PYTHON
}
if [ -n "$python" ]; then
    for mode in structured simple; do
        session $mode
        told "libnbd: odd offsets, zeroes, trims, flushes and refusals, $mode replies" $?
    done
    if "$python" - "$program" <<'PYTHON'; then
import errno, sys
import nbd

h = nbd.NBD()
h.set_strict_mode(0)
h.connect_command([sys.argv[1], "--read-only", "disk.img"])
assert h.is_read_only()
for call in (lambda: h.pwrite(b"a", 0), lambda: h.zero(1, 0), lambda: h.trim(1, 0)):
    try:
        call()
    except nbd.Error as e:
        assert e.errnum == errno.EPERM, e.errnum
    else:
        raise AssertionError("not refused")
h.pread(512, 0)
h.shutdown()
h = nbd.NBD()
h.set_export_name("other")
try:
    h.connect_command([sys.argv[1], "disk.img"])
except nbd.Error:
    pass
else:
    raise AssertionError("an unknown export was served")
PYTHON
        told "libnbd: a read-only image, an unknown export" 0
    else
        told "libnbd: a read-only image, an unknown export" 1
    fi
else
    echo "skipped, python3-libnbd isn't there"
fi

if has socat qemu-img qemu-io; then
    through disk.img 'qemu-img info "$uri"' >qemu 2>&1 && grep -q 'virtual size: 64 MiB' qemu
    told "qemu-img info" $?
    through disk.img 'qemu-io -f raw -c "write -P 0x5a 1M 3M" -c "flush" -c "read -P 0x5a 1M 3M" -c "write -z 2M 64k" -c "read -P 0 2M 64k" "$uri"' >>qemu 2>&1
    told "qemu-io" $?
fi

if has socat fio && fio --enghelp 2>/dev/null | grep -qw nbd; then
    through disk.img 'fio --name=verify --ioengine=nbd --uri="$uri" --rw=randwrite --bs=512-64k --bs_unaligned --size=16M --iodepth=16 --verify=crc32c --do_verify=1' >fio.out 2>&1
    told "fio: random writes, verified" $?
else
    echo "skipped, fio with its nbd engine isn't there"
fi

exit $failed
