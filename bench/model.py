"""Random requests to the program, with a plain model that says each reply and the final image.

    python3 bench/model.py [PROGRAM] [--align N] [--read-only] [--requests N] [--seed S]

Makes an image of 8 MiB of random bytes, sends N requests (100,000 if left out) to
`PROGRAM --transmission IMAGE` in pieces cut at random, and compares every byte that it answers, its
exit status and the image at the end with what the model says. READ, WRITE, WRITE_ZEROES, TRIM and
FLUSH, FUA and the other flags, at any offset and of any length; --align and --read-only are handed to the
program. Prints one line; exits with 1 where anything differs. The same seed gives the same requests in
the same pieces.
"""
import argparse
import collections
import io
import os
import queue
import random
import struct
import subprocess
import sys
import tempfile
import threading
import time

BENCH = os.path.dirname(os.path.abspath(__file__))
OUT = os.path.join(BENCH, "out")
PROGRAM = os.path.join(BENCH, "..", "crates", "qsd_stdio", "out", "qsd_stdio")

BLOCK = 512  # what many offsets and lengths are multiples of, and of 8 times as much
IMAGE_BYTES = 8 << 20
LONGEST = 33_554_432
READ, WRITE, DISC, FLUSH, TRIM, WRITE_ZEROES = 0, 1, 2, 3, 4, 6
STORING = (WRITE, WRITE_ZEROES, TRIM)  # what a read-only image refuses
FUA, NO_HOLE = 1, 2
EPERM, EINVAL, ENOSPC = 1, 22, 28
LARGEST_PIECE = 1 << 16
SECONDS_ALLOWED = 600

Request = collections.namedtuple("Request", "flags kind cookie offset length data")
Due = collections.namedtuple("Due", "number request reply")


def request_bytes(request):
    fields = (request.flags, request.kind, request.cookie, request.offset, request.length)
    return struct.pack(">IHHQQI", 0x25609513, *fields) + request.data


# What the program should do


def allowed_flags(kind):
    return FUA | NO_HOLE if kind == WRITE_ZEROES else FUA


def form_error(request):
    """The error of a request that no image would take."""
    return (
        request.kind not in (READ, WRITE, FLUSH, TRIM, WRITE_ZEROES)
        or request.flags & ~allowed_flags(request.kind) != 0
        or (request.kind == READ and request.length > LONGEST)
    ) and EINVAL


def error_of(request, read_only):
    """The first rule that applies; 0 where none does."""
    if error := form_error(request):
        return error
    if request.kind == FLUSH:
        return 0
    if read_only and request.kind in STORING:
        return EPERM
    if request.offset + request.length > IMAGE_BYTES:
        return ENOSPC if request.kind in (WRITE, WRITE_ZEROES) else EINVAL
    return 0


def answer(image, request, error):
    """The reply's bytes; a WRITE or a WRITE_ZEROES that succeeds changes the image."""
    reply = struct.pack(">IIQ", 0x67446698, error, request.cookie)
    end = request.offset + request.length
    if error:
        return reply
    if request.kind == WRITE:
        image[request.offset:end] = request.data
    if request.kind == WRITE_ZEROES:
        image[request.offset:end] = bytes(request.length)
    if request.kind == READ:
        return reply + image[request.offset:end]
    return reply


# Random requests


def random_blocks(rng):
    """How many blocks: mostly few, now and then up to 1 MiB."""
    if rng.random() < 0.001:
        return rng.randint(1, (1 << 20) // BLOCK)
    return rng.choice((1, 1, 1, 2, 3, 4, 8, 16, 17))


def whole_blocks(rng):
    length = random_blocks(rng) * BLOCK
    return rng.randint(0, (IMAGE_BYTES - length) // BLOCK) * BLOCK, length


def any_range(rng):
    """Any place, of a few bytes to some blocks."""
    length = rng.randint(1, rng.choice((8, BLOCK, 8 * BLOCK, 20 * BLOCK)))
    return rng.randint(0, IMAGE_BYTES - length), length


def near_edges(rng):
    """From about the edge of a block of either size to about another such edge."""
    unit = rng.choice((BLOCK, 8 * BLOCK))
    first, last = sorted(rng.randint(0, IMAGE_BYTES // unit) for _ in range(2))
    last = min(last, first + rng.randint(0, 3))
    ends = (edge * unit + rng.choice((-1, 0, 0, 1)) for edge in (first, last))
    start, end = sorted(min(max(edge, 0), IMAGE_BYTES) for edge in ends)
    return start, end - start


def range_to_the_end(rng):
    length = random_blocks(rng) * BLOCK - rng.choice((0, 0, rng.randint(1, BLOCK - 1)))
    return IMAGE_BYTES - length, length


def empty_range(rng):
    """Length 0: at a block, at the image's end, past it, and inside a block."""
    some_block = rng.randint(0, IMAGE_BYTES // BLOCK) * BLOCK
    return rng.choice((some_block, IMAGE_BYTES, IMAGE_BYTES + 1, IMAGE_BYTES + BLOCK, 1)), 0


def past_the_end(rng):
    length = random_blocks(rng) * BLOCK - rng.choice((0, 0, rng.randint(1, BLOCK - 1)))
    first = IMAGE_BYTES - length + 1
    last = (1 << 64) - 1
    between = rng.randint(first, last)
    whole = rng.randint(IMAGE_BYTES // BLOCK, last // BLOCK) * BLOCK
    return rng.choice((first, IMAGE_BYTES - length + BLOCK, IMAGE_BYTES, between, whole, last)), length


def far_too_long(rng):
    lengths = (IMAGE_BYTES + 1, IMAGE_BYTES + BLOCK, LONGEST, LONGEST + 1, (1 << 32) - BLOCK, (1 << 32) - 1)
    return rng.choice((0, 0, 1, (1 << 64) - 1)), rng.choice(lengths)


RANGES = (whole_blocks,) * 6 + (any_range,) * 5 + (near_edges,) * 5 + (range_to_the_end, empty_range, past_the_end)
KINDS = (READ,) * 8 + (WRITE,) * 8 + (WRITE_ZEROES,) * 3 + (TRIM, FLUSH)


def random_flags(rng, kind):
    if rng.random() < 0.04:
        return rng.choice((1 << rng.randint(0, 15), rng.randint(1, 65535)))
    return rng.choice((0, 0, 0, 0, 0, 0, 0, FUA, allowed_flags(kind) & rng.randint(0, 3)))


def random_request(rng):
    kind = rng.choice(KINDS)
    offset, length = rng.choice(RANGES)(rng)
    odd = rng.random()
    if odd < 0.03:
        kind = rng.choice((5, 7, rng.randint(8, 65535)))
    elif odd < 0.05:
        kind = rng.choice((READ, WRITE_ZEROES, TRIM, FLUSH))
        offset, length = far_too_long(rng)
    elif odd < 0.051:
        kind = WRITE_ZEROES
        offset, length = rng.randint(0, 9), IMAGE_BYTES // rng.choice((2, 4)) - rng.randint(0, 9)
    data = rng.randbytes(length) if kind == WRITE else b""
    return Request(random_flags(rng, kind), kind, rng.getrandbits(64), offset, length, data)


def next_request(rng, words):
    """The next request and its error."""
    request = random_request(rng)
    return request, error_of(request, words.read_only)


# To the program and back


def piece_size(rng):
    """From single bytes to 64 KiB, as many of each order of size."""
    return int(LARGEST_PIECE ** rng.random())


def write_in_pieces(to_program, rng, waiting, keep):
    """Writes what waits in random pieces, until at most `keep` bytes are left."""
    start = 0
    while len(waiting) - start > keep:
        start += to_program.write(waiting[start:start + piece_size(rng)])
    del waiting[:start]


def send_all(to_program, words, image, due, counts):
    """Sends the requests; what is due for each is told before its first byte is sent."""
    rng = random.Random(words.seed)
    waiting = bytearray()
    try:
        for number in range(words.requests):
            request, error = next_request(rng, words)
            reply = answer(image, request, error)
            due.put(Due(number, request, reply))
            waiting += request_bytes(request)
            counts["refused"] += error != 0
            counts["sent"] += 28 + len(request.data)
            write_in_pieces(to_program, rng, waiting, LARGEST_PIECE)
        waiting += request_bytes(Request(0, DISC, rng.getrandbits(64), 0, 0, b""))
        write_in_pieces(to_program, rng, waiting, 0)
    except BrokenPipeError:
        pass  # the program ended early, which the one who reads its replies finds
    finally:
        due.put(None)


def compare_replies(from_program, due, counts):
    """The first difference between the replies and what is due, or None."""
    while (next_due := due.get()) is not None:
        got = from_program.read(len(next_due.reply))
        counts["got"] += len(got)
        if got != next_due.reply:
            return tell_difference(next_due, got)
    extra = from_program.read(16)
    return f"{extra.hex()} behind the last reply" if extra else None


def tell_difference(next_due, got):
    number, request, reply = next_due
    asked = f"type {request.kind} flags {request.flags} offset {request.offset} length {request.length}"
    pairs = enumerate(zip(got, reply))
    place = next((i for i, (have, want) in pairs if have != want), len(got))
    return (
        f"request {number} ({asked}), byte {place} of its reply: "
        f"due are {len(reply)} bytes {reply[:16].hex()}.., came {len(got)} bytes {got[:16].hex()}.."
    )


def compare_images(path, image):
    with open(path, "rb") as file:
        got = file.read()
    if got == image:
        return None
    return "the image at the end"


def run(words, folder):
    """Sends all requests to the program; the first difference, or None, and counts."""
    path = os.path.join(folder, "model.img")
    image = bytearray(random.Random(words.seed + 1).randbytes(IMAGE_BYTES))
    with open(path, "wb") as file:
        file.write(image)
    counts = {"refused": 0, "sent": 0, "got": 0}
    due = queue.SimpleQueue()
    options = ["--transmission"] + ["--read-only"] * words.read_only
    if words.align:
        options += ["--align", str(words.align)]
    program = subprocess.Popen(
        [os.path.abspath(words.program)] + options + [path],
        stdin=subprocess.PIPE,
        stdout=subprocess.PIPE,
        bufsize=0,
    )
    replies = io.BufferedReader(program.stdout)
    limit = threading.Timer(SECONDS_ALLOWED, program.kill)
    limit.start()
    sender = threading.Thread(target=send_all, args=(program.stdin, words, image, due, counts))
    sender.start()
    difference = compare_replies(replies, due, counts)
    if difference:
        program.kill()
    status = program.wait()
    limit.cancel()
    sender.join()
    if not difference and status != 0:
        difference = f"exit status {status}"
    return difference or compare_images(path, image), counts


def main():
    parser = argparse.ArgumentParser(description="Random requests, compared with a plain model.")
    parser.add_argument("program", nargs="?", default=PROGRAM)
    parser.add_argument("--align", type=int, choices=(512, 4096), help="the size of the program's blocks")
    parser.add_argument("--read-only", action="store_true", help="the program serves the image read-only")
    parser.add_argument("--requests", type=int, default=100_000)
    parser.add_argument("--seed", type=int, default=1)
    words = parser.parse_args()
    if not os.path.exists(words.program):
        sys.exit(f"no program at {words.program}: build it first")

    os.makedirs(OUT, exist_ok=True)
    start = time.monotonic()
    with tempfile.TemporaryDirectory(dir=OUT) as folder:
        difference, counts = run(words, folder)
    seconds = time.monotonic() - start
    if difference:
        print(f"seed {words.seed}: DIFFERS: {difference}")
        sys.exit(1)
    print(
        f"seed {words.seed}: {words.requests:,} requests ({counts['refused']:,} refused), "
        f"{counts['sent'] / 1e6:,.0f} MB sent, {counts['got'] / 1e6:,.0f} MB of replies, {seconds:.1f} s: "
        "each reply and the image as the model says"
    )


if __name__ == "__main__":
    main()
