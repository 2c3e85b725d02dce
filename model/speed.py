#!/usr/bin/env python3
"""Compares the speed of `bench` with that of a plain Rust program that plays the same sessions (plain_rust).

    speed.py [BENCH] [--lines N] [--rounds R] [--seed S] [--jobs J]

It needs cargo, for the plain program, and valgrind, which counts instructions. Everything is built and written in
a temporary folder that is removed at the end. The tables, in markdown, come on standard output, and on standard
error how far it is. The status is 1 if the outputs of the two programs differ anywhere.
"""

import argparse
import multiprocessing
import os
import random
import re
import shutil
import subprocess
import sys
import tempfile
import time
from collections import Counter
from concurrent.futures import ThreadPoolExecutor

sys.dont_write_bytecode = True
HERE = os.path.dirname(os.path.abspath(__file__))
sys.path.insert(0, os.path.join(HERE, "bench"))

from generate import Player, seeded, write_batch  # noqa: E402
from random_lines import joined  # noqa: E402

BENCH = os.path.join(HERE, "..", "crates", "bench", "out", "bench")
PLAIN = os.path.join(HERE, "plain_rust")

TOGETHER = 50  # sessions that are written in one go
COUNTED_LINES = 20_000  # lines of the session whose instructions are counted
BEFORE = (10_000, 100_000, 1_000_000)  # how many words come before those that are asked for
COLLECTED = re.compile(rb"Collected : ([0-9]+)")

NAMES = {b"o": "openings", b"g": "openings", b"s": "starts", b"c": "carries", b"f": "forgeries", b"?": "unreadable"}

# From the documentation and not measured here. `record_size` of crates/echo_board says the first in its contract.
RECORD_SIZES = """\
| record of one board | bytes | |
|---|---|---|
| echo method | 132 | proved: `record_size` of `crates/echo_board` |
| plain method | 44 | measured |"""


class Differ(Exception):
    """The programs do not agree, or one of them did not come to a good end."""


def tell(text):
    print(text, file=sys.stderr, flush=True)


def grouped(number):
    return f"{number:,.0f}"


def table(head, rows):
    return "\n".join("| " + " | ".join(cells) + " |" for cells in (head, ["---"] * len(head), *rows))


# Sessions.


def sessions_of(job):
    seed, first = job
    session, _ = write_batch(seed, first, TOGETHER)
    return session if session.endswith(b"\n") else session + b"\n"


def random_sessions(seed, lines, processes):
    """Random sessions one behind the other, of about so many lines together."""
    written = []
    count = 0
    with multiprocessing.Pool(processes) as pool:
        for session in pool.imap(sessions_of, ((seed, first) for first in range(0, lines, TOGETHER))):
            written.append(session)
            count += session.count(b"\n")
            if count >= lines:
                pool.terminate()
                break
    return b"".join(written)


def front(session, lines):
    """The first so many lines."""
    return b"".join(session.splitlines(keepends=True)[:lines])


class Words:
    """One group of the largest crew, and the lines that bring a word to a board that has not counted it yet.

    Eleven steady boards carry to one another whatever they post. Each of the five listed boards says to each steady
    one an echo of every value, and one word of each other kind.
    """

    def __init__(self, rng):
        player = Player(rng)
        steady, listed = range(11), range(11, 16)
        bad = sum(2**board for board in listed)
        starts = [1 + board % 8 for board in range(16)]
        player.say(joined(b"o", b"e", 2, 16, 5, 8, bad, *starts))
        for board in steady:
            player.say(joined(b"s", board))
        self.opening = player.lines[:]

        waiting = []
        sent = [0 for _ in steady]

        def spread(sender):
            posted = player.group.boards[sender].posted
            waiting.extend((to, joined(b"c", to, sender, *word)) for word in posted[sent[sender] :] for to in steady)
            sent[sender] = len(posted)

        for board in steady:
            spread(board)
        for liar in listed:
            for to in steady:
                lies = [(1, value) for value in range(9)] + [(kind, rng.randint(0, 8)) for kind in range(2, 6)]
                waiting.extend((to, joined(b"f", to, liar, 1, 1, liar, *lie)) for lie in lies)
        while waiting:
            place = rng.randrange(len(waiting))
            waiting[place], waiting[-1] = waiting[-1], waiting[place]
            to, line = waiting.pop()
            assert player.say(line), line
            spread(to)
        self.new = player.lines[len(self.opening) :]
        self.rng = rng

    def halves(self):
        middle = len(self.new) // 2
        return self.new[:middle], self.new[middle:]

    def session(self, before):
        """So many words, the first half of the new ones and then the same again in any order."""
        early, _ = self.halves()
        return self.opening + early + self.rng.choices(early, k=before - len(early))


# Runs.


class Run:
    """One run of a program from file to file: its time by the clock and on the processor."""

    def __init__(self, program, session, output):
        with open(session, "rb") as given, open(output, "wb") as taken:
            begun = time.perf_counter()
            child = subprocess.Popen([program], stdin=given, stdout=taken)
            _, status, used = os.wait4(child.pid, 0)
            self.clock = time.perf_counter() - begun
            child.returncode = os.waitstatus_to_exitcode(status)
        self.processor = used.ru_utime + used.ru_stime
        if child.returncode != 0:
            raise Differ(f"{program} ended with status {child.returncode}")


def contents(path):
    with open(path, "rb") as file:
        return file.read()


def peak_memory(program, session):
    """The largest resident set in KiB.

    It is asked while the program waits for more input: what `getrusage` tells of a child that has ended counts the
    memory of this script too, from which the child was forked.
    """
    child = subprocess.Popen([program], stdin=subprocess.PIPE, stdout=subprocess.DEVNULL)
    child.stdin.write(contents(session))
    child.stdin.flush()
    with open(f"/proc/{child.pid}/status", encoding="ascii") as status:
        peak = next(int(line.split()[1]) for line in status if line.startswith("VmHWM"))
    child.stdin.close()
    child.wait()
    return peak


def instructions(program, session):
    """How many instructions a run takes, by callgrind."""
    command = ["valgrind", "--tool=callgrind", "--callgrind-out-file=/dev/null", program]
    with open(session, "rb") as given:
        done = subprocess.run(command, stdin=given, stdout=subprocess.DEVNULL, stderr=subprocess.PIPE, check=True)
    return int(COLLECTED.search(done.stderr).group(1))


class Comparison:
    """The two programs, and the temporary folder."""

    def __init__(self, bench, folder, jobs):
        self.folder = folder
        self.jobs = jobs
        tell("building the plain program")
        target = os.path.join(folder, "target")
        command = ["cargo", "build", "--release", "--offline", "--locked", "--quiet", "--target-dir", target]
        subprocess.run(command, cwd=PLAIN, check=True)
        self.programs = (bench, os.path.join(target, "release", "plain_rust"))

    def path(self, name):
        return os.path.join(self.folder, name)

    def write(self, name, content):
        with open(self.path(name), "wb") as file:
            file.write(content)
        return self.path(name)

    def check_outputs(self, session, outputs):
        """One line for each line of the session, and the same of both programs."""
        lines = contents(session).count(b"\n")
        for program, output in zip(self.programs, outputs):
            if contents(output).count(b"\n") != lines:
                raise Differ(f"{program} did not write one line for each of the {lines} lines")
        if contents(outputs[0]) != contents(outputs[1]):
            raise Differ("the outputs of the two programs differ")

    def run_both(self, session):
        """A run of each on a session; the outputs have to be equal."""
        outputs = [self.path(f"output{number}") for number in range(2)]
        runs = [Run(program, session, output) for program, output in zip(self.programs, outputs)]
        self.check_outputs(session, outputs)
        return runs

    def count_all(self, sessions):
        """The instructions of both programs on each of the sessions. They are the same whatever else runs."""
        with ThreadPoolExecutor(self.jobs) as pool:
            asked = [[pool.submit(instructions, program, session) for program in self.programs] for session in sessions]
            return [[count.result() for count in counts] for counts in asked]


# Tables.


def described(session, output):
    """What the lines of a session are."""
    answers = contents(output).splitlines()
    kinds = Counter(NAMES[answer[:1]] for answer in answers)
    refused = sum(not answer.startswith(b"0", 2) for answer in answers)
    shares = [f"{kinds[kind] / len(answers):.1%} {kind}" for kind in dict.fromkeys(NAMES.values())]
    return f"{grouped(len(answers))} lines: {', '.join(shares)}; {refused / len(answers):.1%} are refused."


def speed_table(comparison, session, rounds):
    lines = contents(session).count(b"\n")
    runs = []
    for turn in range(rounds):
        tell(f"round {turn + 1} of {rounds}")
        runs.append(comparison.run_both(session))
    tell("memory")
    memory = [peak_memory(program, session) for program in comparison.programs]
    tell(f"instructions of {grouped(COUNTED_LINES)} lines")
    short = comparison.write("short", front(contents(session), COUNTED_LINES))
    empty = comparison.write("empty", b"")
    counted, nothing = comparison.count_all((short, empty))
    each = [(total - start) / COUNTED_LINES for total, start in zip(counted, nothing)]

    clock = [lines / min(run[i].clock for run in runs) for i in range(2)]
    processor = [lines / min(run[i].processor for run in runs) for i in range(2)]
    head = ["", "`bench`", "plain Rust", "bench / plain"]
    rows = []
    for name, (a, b) in (
        (f"lines a second by the clock, best of {rounds}", clock),
        (f"lines a second of processor time, best of {rounds}", processor),
        ("instructions for each line", each),
        ("peak memory, KiB", memory),
    ):
        rows.append([name, grouped(a), grouped(b), f"{a / b:.2f}"])
    return table(head, rows)


def growth_table(comparison, seed):
    words = Words(seeded(seed, "words"))
    _, late = words.halves()

    def written(name, lines):
        session = comparison.write(name, b"".join(line + b"\n" for line in lines))
        comparison.run_both(session)
        return session

    sessions = [written("opening", words.opening)]
    for before in BEFORE:
        tell(f"a session of {grouped(before)} words and more")
        lines = words.session(before)
        sessions += [written(f"{before}", lines), written(f"{before} and more", lines + late)]
    tell("instructions of these")
    opening, *counts = comparison.count_all(sessions)
    head = ["words before", "each of them, `bench`", "each of them, plain Rust"]
    head += ["each new word behind them, `bench`", "each new word behind them, plain Rust"]
    rows = []
    for before, without, more in zip(BEFORE, counts[::2], counts[1::2]):
        old = [(count - start) / before for count, start in zip(without, opening)]
        new = [(longer - shorter) / len(late) for longer, shorter in zip(more, without)]
        rows.append([grouped(number) for number in (before, *old, *new)])
    return f"The new words behind them are the same {grouped(len(late))} each time.\n\n{table(head, rows)}"


def machine():
    with open("/proc/cpuinfo", encoding="utf-8") as file:
        name = next(line.split(":", 1)[1].strip() for line in file if line.startswith("model name"))
    return f"{name}, {os.cpu_count()} processors"


def measure(bench, asked):
    with tempfile.TemporaryDirectory(prefix="speed") as folder:
        comparison = Comparison(bench, folder, asked.jobs)
        tell(f"writing a session of {grouped(asked.lines)} lines")
        session = comparison.write("session", random_sessions(asked.seed, asked.lines, asked.jobs))
        comparison.run_both(session)
        print(f"Machine: {machine()}.", f"Session: {described(session, comparison.path('output0'))}", sep="\n")
        print("\n" + speed_table(comparison, session, asked.rounds))
        print("\nInstructions for each word, in one group of 16 boards in the echo method at depth 2.")
        print(growth_table(comparison, asked.seed))
        print("\n" + RECORD_SIZES)


def main():
    parser = argparse.ArgumentParser(description="Compares the speed of bench with a plain Rust program.")
    parser.add_argument("bench", nargs="?", default=BENCH, help="the program, by default crates/bench/out/bench")
    parser.add_argument("--lines", type=int, default=1_000_000, help="about how many lines the session has")
    parser.add_argument("--rounds", type=int, default=5, help="how often each program is run")
    parser.add_argument("--seed", default="speed", help="the session follows from it")
    parser.add_argument("--jobs", type=int, default=os.cpu_count(), help="how many processes write and count")
    asked = parser.parse_args()
    bench = os.path.abspath(asked.bench)
    if not os.access(bench, os.X_OK):
        parser.error(f"no program {asked.bench}")
    for tool in ("cargo", "valgrind"):
        if shutil.which(tool) is None:
            parser.error(f"{tool} is needed")
    try:
        measure(bench, asked)
    except Differ as differ:
        print(differ)
        return 1
    return 0


if __name__ == "__main__":
    sys.exit(main())
