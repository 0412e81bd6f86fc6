#!/usr/bin/env python3
"""How fast a client of libnbd copies an image out of qsd_stdio over standard streams, beside nbdkit's file plugin.

    bench/copy.py [PROGRAM] [--mib N] [--rounds N]

An image of N MiB (1024) of random bytes, made in bench/out/ and in the page cache; READs of 256 KiB, 8 in
flight. The two take turns. Wants Debian's packages python3-libnbd and nbdkit (where python3 is another one, run
it by /usr/bin/python3).
"""
import argparse
import os
import shutil
import statistics
import sys
import time

try:
    import nbd
except ImportError:
    sys.exit("skipped, python3-libnbd isn't there")

SIZE = 256 << 10
DEPTH = 8


def copy(command):
    """The seconds that a whole copy takes."""
    h = nbd.NBD()
    h.set_export_name("")
    h.connect_command(command)
    size = h.get_size()
    done = [0]

    def came(_):
        done[0] += 1
        return 1

    buffers = [nbd.Buffer(SIZE) for _ in range(DEPTH)]
    begun = time.monotonic()
    asked = 0
    total = size // SIZE
    while done[0] < total:
        while asked < total and asked - done[0] < DEPTH:
            h.aio_pread(buffers[asked % DEPTH], asked * SIZE, completion=came)
            asked += 1
        h.poll(-1)
    seconds = time.monotonic() - begun
    h.shutdown()
    return seconds


def main():
    words = argparse.ArgumentParser()
    words.add_argument("program", nargs="?", default="crates/qsd_stdio/out/qsd_stdio")
    words.add_argument("--mib", type=int, default=1024)
    words.add_argument("--rounds", type=int, default=3)
    words = words.parse_args()
    if shutil.which("nbdkit") is None:
        sys.exit("skipped, nbdkit isn't there")
    os.makedirs("bench/out", exist_ok=True)
    image = "bench/out/copy.img"
    with open(image, "wb") as out:
        for _ in range(words.mib):
            out.write(os.urandom(1 << 20))
    ours = [os.path.abspath(words.program), "--align", "4096", image]
    other = ["nbdkit", "-s", "--exit-with-parent", "file", image]
    rows = {"qsd_stdio": [], "nbdkit file": []}
    for _ in range(words.rounds):
        for name, command in (("qsd_stdio", ours), ("nbdkit file", other)):
            rows[name].append(words.mib * 1.048576 / copy(command))
    os.remove(image)
    for name, rates in rows.items():
        print(f"{name}: {statistics.median(rates):,.0f} MB/s, the median of {words.rounds}")
    ratio = statistics.median(a / b for a, b in zip(*rows.values()))
    print(f"qsd_stdio / nbdkit file: {ratio:.2f}")


main()
