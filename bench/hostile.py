"""Runs a program between two non-blocking streams, both slow.

    hostile.py pipe|socket PROGRAM WORD..

Sends eight READs of 64 blocks in pieces, with a pause in the midst of one, and takes the replies only after a
second. Prints the exit status, whether all bytes came, and whether the program was idle while it waited.
"""

import os
import resource
import socket
import struct
import subprocess
import sys
import time

BLOCKS = 64
READS = 8


def streams(kind):
    """The program's two ends, and ours: what we write to and read from."""
    if kind == "pipe":
        read_in, write_in = os.pipe()
        read_out, write_out = os.pipe()
        return read_in, write_out, write_in, read_out
    a, b = socket.socketpair()
    a, b = a.detach(), b.detach()
    return a, a, b, b


def main():
    theirs_in, theirs_out, ours_in, ours_out = streams(sys.argv[1])
    os.set_blocking(theirs_in, False)
    os.set_blocking(theirs_out, False)
    child = subprocess.Popen(sys.argv[2:], stdin=theirs_in, stdout=theirs_out, stderr=subprocess.DEVNULL)
    os.close(theirs_in)
    if theirs_out != theirs_in:
        os.close(theirs_out)
    reads = b"".join(struct.pack(">IHHQQI", 0x25609513, 0, 0, n, 0, BLOCKS * 512) for n in range(READS))
    disc = struct.pack(">IHHQQI", 0x25609513, 0, 2, 99, 0, 0)
    time.sleep(0.5)
    os.write(ours_in, reads[:41])
    time.sleep(0.5)
    os.write(ours_in, reads[41:] + disc)
    time.sleep(1)
    taken = 0
    while True:
        piece = os.read(ours_out, 1 << 16)
        if not piece:
            break
        taken += len(piece)
    status = child.wait(timeout=20)
    usage = resource.getrusage(resource.RUSAGE_CHILDREN)
    whole = "all" if taken == READS * (16 + BLOCKS * 512) else f"{taken} bytes"
    idle = "idle" if usage.ru_utime + usage.ru_stime < 0.5 else "busy"
    print(status, whole, idle)


main()
