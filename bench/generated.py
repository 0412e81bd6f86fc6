#!/usr/bin/env python3
"""The made-up run of qsd_replay beside the same run as a script, line by line.

    python3 bench/generated.py [PROGRAM] [--seed N] [--blocks N] [--align N] [--rounds N]

Draws what a made-up run draws from its seed, and sends it to the program as a script, one line at a time: a
`run` as single steps, so that all steps are counted. What is live is read off the answers. At the end the
image is read back and summed. Where all 10,000 rounds are made, the line that `--generate` prints is compared;
the status is 1 where it differs. PROGRAM is crates/qsd_replay/out/qsd_replay where none is given.
"""
import argparse
import os
import subprocess
import sys
import time

BENCH = os.path.dirname(os.path.abspath(__file__))
PROGRAM = os.path.join(BENCH, "..", "crates", "qsd_replay", "out", "qsd_replay")
NAMES = "ABCD"
ROUNDS = 10_000
WAITING = ("not-yet", "quiesced", "full", "busy", "taken")  # words of a step that leaves its request as it was


class Draws:
    def __init__(self, seed):
        self.state = seed

    def draw(self, bound):
        self.state = (self.state * 6364136223846793005 + 1442695040888963407) % 2**64
        return (self.state // 2**33) % bound


class Script:
    """A run of the program that is sent lines and answers each step."""

    def __init__(self, words):
        self.run = subprocess.Popen(words, stdin=subprocess.PIPE, stdout=subprocess.PIPE)
        self.live, self.errors, self.steps = [], 0, 0

    def send(self, line):
        self.run.stdin.write(line.encode() + b"\n")

    def told(self):
        self.run.stdin.flush()
        return self.run.stdout.readline().decode().rstrip("\n")

    def session(self, name):
        self.send(f"session {name} disk")
        assert self.told().startswith(f"{name} attached"), "a session isn't attached"

    def step(self, who):
        """One step; whether its request goes on, and whether it can at once."""
        self.send(f"step {who}")
        words = self.told().split(" ")
        self.steps += 1
        if words[1] != "ended":
            return words[1] not in WAITING
        answer = self.told().split(" ")
        self.errors += answer[2] != "0"
        self.live.remove(who)
        return False

    def read_back(self, size):
        """The sum of the image's bytes, each times its place counted from 1."""
        self.session("E")
        total = 0
        for number, at in enumerate(range(0, size, 4096)):
            self.send(f"read E {number} {at} 4096")
            self.send(f"run E.{number}")
            data = bytes.fromhex(self.told().split(" ")[3])
            total += sum(byte * (at + i + 1) for i, byte in enumerate(data))
        return total % 2**64


def ask(script, draws, number, size):
    """A round's request, and how many steps are made behind it."""
    name, kind = NAMES[draws.draw(4)], draws.draw(8)
    offset, length, byte = draws.draw(size - 2048), 1 + draws.draw(2048), draws.draw(256)
    if kind == 7 or number % 64 == 0:
        script.send(f"flush {name} {number}")
    elif kind <= 2:
        script.send(f"write {name} {number} {offset} {byte:02x}*{length}")
    else:
        script.send(f"{'read' if kind <= 5 else 'zero'} {name} {number} {offset} {length}")
    script.live.append(f"{name}.{number}")
    return 1 + draws.draw(4)


def rounds(script, draws, size, count):
    for number in range(1, count + 1):
        for _ in range(ask(script, draws, number, size)):
            if script.live:
                script.step(script.live[draws.draw(len(script.live))])
        if number % 16 == 0:
            for _ in range(16):
                for who in list(script.live):
                    while script.step(who):
                        pass


def main():
    words = argparse.ArgumentParser()
    words.add_argument("program", nargs="?", default=PROGRAM)
    words.add_argument("--seed", type=int, default=7)
    words.add_argument("--blocks", type=int, default=64)
    words.add_argument("--align", type=int, default=512)
    words.add_argument("--rounds", type=int, default=ROUNDS)
    words = words.parse_args()
    shape = [words.program, "--blocks", str(words.blocks), "--align", str(words.align)]
    size = words.blocks * words.align
    script = Script(shape)
    for name in NAMES:
        script.session(name)
    rounds(script, Draws(words.seed), size, words.rounds)
    steps, errors = script.steps, script.errors
    line = f"requests {words.rounds} errors {errors} steps {steps} sum {script.read_back(size)}"
    script.run.stdin.close()
    if script.run.wait() != 0:
        sys.exit(f"the script ended with status {script.run.returncode}")
    print(line)
    if words.rounds != ROUNDS:
        return
    begun = time.monotonic()
    made = subprocess.run(shape + ["--generate", str(words.seed)], stdin=subprocess.DEVNULL, stdout=subprocess.PIPE)
    print(f"{made.stdout.decode().rstrip()} (status {made.returncode}, {time.monotonic() - begun:.2f} s)")
    if made.returncode != 0 or made.stdout.decode() != line + "\n":
        sys.exit("they differ")


main()
