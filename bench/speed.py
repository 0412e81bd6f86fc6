"""Speed of the program beside that of the floor: requests a second and MB a second over a pipe.

    python3 bench/speed.py [PROGRAM] [--align N] [--only WORK] [--seconds S] [--rounds N] [--before PROGRAM]

READs and WRITEs of 4 KiB and of 256 KiB at random places, one at a time and 16 in flight; a WRITE of
4 KiB or of 1 MiB and a FLUSH behind it; a WRITE_ZEROES of 256 MiB. Each at multiples of its size and one
byte behind them, with blocks of 512 and of 4096 bytes. Builds floor.c and client.c, makes the image, runs
each case N times for S seconds, the program and the floor one after the other, and prints the median of
each as a table. `processor` is the time of a processor, in microseconds a request, that the server used,
and behind the slash the client. A second table has the calls of the system that a request makes, counted
by strace where it is there.

With --before PROGRAM an earlier build takes turns with the program in place of the floor, and the medians of
the ratios within each round are told: how many requests a second, and how much of a processor's time.
"""
import argparse
import collections
import os
import re
import shutil
import statistics
import subprocess
import sys
import tempfile

BENCH = os.path.dirname(os.path.abspath(__file__))
OUT = os.path.join(BENCH, "out")
PROGRAM = os.path.join(BENCH, "..", "crates", "qsd_stdio", "out", "qsd_stdio")
MIB = 1 << 20
ZEROED = 256 * MIB
IMAGE_BYTES = ZEROED + MIB
MANY = 1 << 32  # more requests than any run makes
SECONDS_COUNTED = 60

# A kind of work, the bytes of a request, how far it stands behind a multiple of them, how many are in flight
Case = collections.namedtuple("Case", "work size shift in_flight")
KINDS = {"read": "READ", "write": "WRITE", "sync": "WRITE, FLUSH", "zero": "WRITE_ZEROES"}
SIZES = (
    [(work, size, in_flight) for work in ("read", "write") for size in (4 << 10, 256 << 10) for in_flight in (1, 16)]
    + [("sync", 4 << 10, 1), ("sync", MIB, 1), ("zero", ZEROED, 1)]
)
CASES = [Case(work, size, shift, in_flight) for work, size, in_flight in SIZES for shift in (0, 1)]


class Figures:
    """What one run gave, or the median of several."""

    def __init__(self, rate, server_micros, client_micros):
        self.rate = rate
        self.server_micros = server_micros
        self.client_micros = client_micros


def build(name):
    built = os.path.join(OUT, name)
    source = os.path.join(BENCH, name + ".c")
    subprocess.run(["cc", "-O2", "-Wall", "-o", built, source], check=True)
    return built


def make_image(folder):
    """An image of random bytes, all of it in the file and on the medium."""
    path = os.path.join(folder, "speed.img")
    piece = os.urandom(MIB)
    with open(path, "wb") as image:
        for _ in range(IMAGE_BYTES // len(piece)):
            image.write(piece)
        image.flush()
        os.fsync(image.fileno())
    return path


def run_client(client, server, case, seconds, most):
    """How many requests were answered, in how many seconds, and the processor seconds of both sides."""
    numbers = (case.size, case.shift, case.in_flight, seconds, most, IMAGE_BYTES)
    words = [client, case.work] + [str(number) for number in numbers] + server
    line = subprocess.run(words, check=True, stdout=subprocess.PIPE, text=True).stdout
    return [float(word) for word in line.split()]


def run_case(client, server, case, seconds):
    requests, took, server_used, client_used = run_client(client, server, case, seconds, MANY)
    return Figures(requests / took, server_used / requests * 1e6, client_used / requests * 1e6)


def median(runs):
    return Figures(
        statistics.median(run.rate for run in runs),
        statistics.median(run.server_micros for run in runs),
        statistics.median(run.client_micros for run in runs),
    )


# System calls


def calls_of(client, server, case, most, folder):
    """How often each call of the system is made in a run of so many requests."""
    table = os.path.join(folder, "calls")
    traced = [shutil.which("strace"), "-f", "-c", "-o", table] + server
    run_client(client, traced, case, SECONDS_COUNTED, most)
    calls = collections.Counter()
    with open(table) as lines:
        for line in lines:
            # percent, seconds, microseconds a call, calls, perhaps errors, name
            found = re.match(r" *[\d.]+ +[\d.]+ +\d+ +(\d+) +(?:\d+ +)?(\w+)$", line)
            if found and found[2] != "total":
                calls[found[2]] += int(found[1])
    return calls


def counted_requests(case):
    """So many that their calls are at most some 100,000, but for one WRITE_ZEROES."""
    return max(1, min(1000, (64 * MIB) // case.size))


def calls_a_request(client, server, case, folder):
    """The calls of a run less those of one without requests, for each request."""
    most = counted_requests(case)
    full = calls_of(client, server, case, most, folder)
    full.subtract(calls_of(client, server, case, 0, folder))
    often = sorted(full.items(), key=lambda item: (-item[1], item[0]))
    return {name: count / most for name, count in often if count / most >= 0.01}


def tell_calls(calls):
    return ", ".join(f"{name} {count:,.0f}" if count >= 10 else f"{name} {count:.2f}" for name, count in calls.items())


# The tables


def tell_size(size):
    return f"{size // MIB} MiB" if size >= MIB else f"{size >> 10} KiB"


def tell_case(case, align):
    place = "unaligned" if case.shift else "aligned"
    return [KINDS[case.work], tell_size(case.size), place, str(align), str(case.in_flight)]


CASE_NAMES = ["kind", "size", "offset", "align", "in flight"]


def print_row(cells):
    print("| " + " | ".join(cells) + " |", flush=True)


def print_head(names, plain):
    """The first `plain` columns stand at the left."""
    print_row(names)
    print("|" + "---|" * plain + "---:|" * (len(names) - plain), flush=True)


def print_speeds(client, servers, cases, seconds, rounds):
    names = []
    for who in ("program", "floor"):
        names += [f"{who} requests/s", "MB/s", "processor"]
    print_head(CASE_NAMES + names + ["program / floor"], len(CASE_NAMES))
    for case, align in cases:
        found = [[run_case(client, server, case, seconds) for server in servers(align)] for _ in range(rounds)]
        program, floor = (median(runs) for runs in zip(*found))
        cells = tell_case(case, align)
        for figures in (program, floor):
            cells.append(f"{figures.rate:,.0f}" if figures.rate >= 10 else f"{figures.rate:.2f}")
            cells.append(f"{figures.rate * case.size / 1e6:,.0f}")
            cells.append(f"{figures.server_micros:,.1f} / {figures.client_micros:,.1f}")
        print_row(cells + [f"{program.rate / floor.rate:.2f}"])


def print_turns(client, servers, cases, seconds, rounds):
    names = ["program requests/s", "processor", "before requests/s", "processor", "rate / before", "processor / before"]
    print_head(CASE_NAMES + names, len(CASE_NAMES))
    for case, align in cases:
        found = [[run_case(client, server, case, seconds) for server in servers(align)] for _ in range(rounds)]
        cells = tell_case(case, align)
        for figures in (median(runs) for runs in zip(*found)):
            cells.append(f"{figures.rate:,.0f}" if figures.rate >= 10 else f"{figures.rate:.2f}")
            cells.append(f"{figures.server_micros:,.1f}")
        cells.append(f"{statistics.median(now.rate / then.rate for now, then in found):.2f}")
        cells.append(f"{statistics.median(now.server_micros / then.server_micros for now, then in found):.2f}")
        print_row(cells)


def print_calls(client, servers, cases, folder):
    print_head(CASE_NAMES + ["program's calls a request", "floor's"], len(CASE_NAMES) + 2)
    for case, align in cases:
        counts = [calls_a_request(client, server, case, folder) for server in servers(align)]
        print_row(tell_case(case, align) + [tell_calls(count) for count in counts])


def read_words():
    parser = argparse.ArgumentParser(description="Speed of the program beside that of the floor.")
    parser.add_argument("program", nargs="?", default=PROGRAM)
    parser.add_argument("--align", type=int, choices=(512, 4096), help="blocks of one size alone")
    parser.add_argument("--only", choices=sorted(KINDS), help="one kind of work alone")
    parser.add_argument("--seconds", type=float, default=2.0, help="the time of one run")
    parser.add_argument("--rounds", type=int, default=3, help="runs of each case")
    parser.add_argument("--before", metavar="PROGRAM", help="an earlier build, in place of the floor")
    words = parser.parse_args()
    if not os.path.exists(words.program):
        sys.exit(f"no program at {words.program}: build it first")
    return words


def cases_of(words):
    """Each case with the size of its blocks."""
    cases = [case for case in CASES if words.only in (None, case.work)]
    aligns = [words.align] if words.align else [512, 4096]
    return [(case, align) for case in cases for align in aligns]


def main():
    words = read_words()
    cases = cases_of(words)
    os.makedirs(OUT, exist_ok=True)
    client = build("client")
    floor = build("floor")
    with tempfile.TemporaryDirectory(dir=OUT) as folder:
        image = make_image(folder)

        def server(program, align):
            return [os.path.abspath(program), "--transmission", "--align", str(align), image]

        if words.before:
            print_turns(
                client,
                lambda align: [server(program, align) for program in (words.program, words.before)],
                cases,
                words.seconds,
                words.rounds,
            )
            return

        def servers(align):
            return server(words.program, align), [floor, image]

        print_speeds(client, servers, cases, words.seconds, words.rounds)
        print()
        if shutil.which("strace"):
            print_calls(client, servers, cases, folder)
        else:
            print("No strace here: the calls of the system aren't counted.")


if __name__ == "__main__":
    main()
