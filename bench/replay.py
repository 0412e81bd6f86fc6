#!/usr/bin/env python3
"""Steps per second and peak memory of `qsd_replay`, beside reading and printing lines alone.

A script of READs of 4 bytes over two blocks, with a padded WRITE in place of every fiftieth, each done
step by step, is replayed, and one of READs alone; then as many comments of the same length are, which
are read and do nothing; and a few lines of C (lines.c) copy the same lines. Run at the top of the
repository, once the program stands (see bench/README.md).

With --before PROGRAM an earlier build takes turns with the program on the first, the second and the
fourth script, at real-time priority where chrt is allowed it; the medians are told, and that of the
ratios. With --instructions it is told how many instructions a line takes, under valgrind, which other
work on the machine doesn't change; nothing is timed then.
"""
import argparse
import os
import re
import subprocess
import sys
import time

# The scripts that two programs are compared by: whether WRITEs are among the READs, and whether all are comments
SCRIPTS = [
    ("replayed", True, False),
    ("replayed, READs alone", False, False),
    ("comments, read alone", True, True),
]
WRITE_STEPS = 9  # enter, route, listed, started, held, held, stored, stored, ended
READ_STEPS = 7  # enter, route, listed, started, loaded, loaded, ended


def script(path, requests, writes, comments):
    """Writes the script, or comments of the same lengths; how many steps it has."""
    steps = 0
    with open(path, "w") as out:
        out.write("session A disk\n")
        for i in range(requests):
            offset = 510 + 512 * (i % 60)
            if writes and i % 50 == 0:
                ask, count = f"write A {i} {offset} aa*4", WRITE_STEPS
            else:
                ask, count = f"read A {i} {offset} 4", READ_STEPS
            lines = [ask] + [f"step A.{i}"] * count
            for line in lines:
                out.write(f"#{line[1:]}\n" if comments else f"{line}\n")
            steps += count
    return steps


def peak(process):
    """The greatest resident size in KiB that a running process had so far."""
    try:
        with open(f"/proc/{process.pid}/status") as status:
            return max((int(line.split()[1]) for line in status if line.startswith("VmHWM")), default=0)
    except OSError:
        return 0


def measured(command, source):
    """Seconds of one run and its exit status."""
    with open(source) as lines, open(os.devnull, "w") as sink:
        start = time.monotonic()
        status = subprocess.run(command, stdin=lines, stdout=sink).returncode
    return time.monotonic() - start, status


def peak_of(command, source):
    """The peak memory in MiB of one run, looked at every few milliseconds up to its end."""
    most = 0
    with open(source) as lines, open(os.devnull, "w") as sink:
        process = subprocess.Popen(command, stdin=lines, stdout=sink)
        while process.poll() is None:
            most = max(most, peak(process))
            time.sleep(0.002)
    return most / 1024


def real_time(program):
    """The command that runs the program at real-time priority, where that is allowed."""
    urgent = ["chrt", "-f", "50"]
    try:
        allowed = subprocess.run(urgent + ["true"], stderr=subprocess.DEVNULL).returncode == 0
    except OSError:
        allowed = False
    return urgent + [program] if allowed else [program]


def side_by_side(program, before, source, rounds):
    """The median seconds of two programs that take turns, and of the ratios within each round."""
    pairs = []
    for _ in range(rounds):
        first, status = measured(real_time(program), source)
        second, other = measured(real_time(before), source)
        if status or other:
            sys.exit(f"side by side: exit status {status or other}")
        pairs.append((first, second, first / second))
    middle = rounds // 2
    return [sorted(pair[k] for pair in pairs)[middle] for k in range(3)]


def tell_turns(options, source):
    """A row for each script that both programs are given."""
    print("| run, in turns | steps | seconds | before | ratio |")
    print("|---|---:|---:|---:|---:|")
    for name, writes, comments in SCRIPTS:
        steps = script(source, options.requests, writes, comments)
        now, then, ratio = side_by_side(options.program, options.before, source, options.rounds)
        print(f"| {name} | {steps:,} | {now:.3f} | {then:.3f} | {ratio:.2f} |", flush=True)


def instructions(program, source):
    """How many instructions a run executes."""
    words = ["valgrind", "--tool=callgrind", "--callgrind-out-file=/dev/null", program]
    with open(source) as lines:
        told = subprocess.run(words, stdin=lines, stdout=subprocess.DEVNULL, stderr=subprocess.PIPE, text=True)
    return int(re.search(r"Collected : (\d+)", told.stderr)[1])


def tell_instructions(options, source):
    """A row for each script: the instructions of a line, by two scripts of different lengths."""
    programs = [options.program] + ([options.before] if options.before else [])
    print("| run | instructions a line |" + (" before |" if options.before else ""))
    print("|---|---:|" + ("---:|" if options.before else ""))
    for name, writes, comments in SCRIPTS:
        cells = []
        for program in programs:
            counts = []
            for requests in (1000, 6000):
                script(source, requests, writes, comments)
                with open(source) as lines:
                    counts.append((instructions(program, source), sum(1 for _ in lines)))
            (few, short), (many, long) = counts
            cells.append(f"{(many - few) / (long - short):,.1f}")
        print(f"| {name} | " + " | ".join(cells) + " |", flush=True)


def tell_runs(options, here, source):
    """A row for each script, and one for the yardstick."""
    floor = os.path.join(here, "out", "lines")
    subprocess.run(["cc", "-O2", "-o", floor, os.path.join(here, "lines.c")], check=True)
    print("| run | steps | seconds | steps/s | peak MiB |")
    print("|---|---:|---:|---:|---:|")
    count = options.requests
    runs = [("replayed", count, True, False, None),
            ("replayed, READs alone", count, False, False, None),
            ("replayed, READs alone, twice as many", 2 * count, False, False, None),
            ("comments, read alone", count, True, True, None),
            ("copied by lines.c", count, True, False, floor)]
    for name, requests, writes, comments, command in runs:
        steps = script(source, requests, writes, comments)
        command = [command] if command else [options.program]
        found = [measured(command, source) for _ in range(options.rounds)]
        if any(status for _, status in found):
            sys.exit(f"{name}: exit status {found[0][1]}")
        seconds = sorted(s for s, _ in found)[len(found) // 2]
        memory = peak_of(command, source)
        print(f"| {name} | {steps:,} | {seconds:.2f} | {steps / seconds:,.0f} | {memory:.1f} |")


def main():
    parser = argparse.ArgumentParser(description=__doc__)
    parser.add_argument("program", nargs="?", default="crates/qsd_replay/out/qsd_replay")
    parser.add_argument("--before", help="an earlier build, which takes turns with the program")
    parser.add_argument("--instructions", action="store_true", help="count instructions, and time nothing")
    parser.add_argument("--requests", type=int, default=142_000)
    parser.add_argument("--rounds", type=int, default=3)
    options = parser.parse_args()
    here = os.path.dirname(os.path.abspath(__file__))
    out = os.path.join(here, "out")
    os.makedirs(out, exist_ok=True)
    source = os.path.join(out, "replay.txt")
    if options.instructions:
        tell_instructions(options, source)
    elif options.before:
        tell_turns(options, source)
    else:
        tell_runs(options, here, source)
    os.remove(source)


main()
