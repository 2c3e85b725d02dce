#!/usr/bin/env python3
"""Runs the program `bench` on random sessions and compares its output with the model's, line by line.

    compare.py BENCH [--sessions N] [--seed S] [--jobs J]

The first sessions have a process each, the others share processes: an opening replaces the group.
At the first difference the session is cut down as long as the outputs still differ, and shown.
"""

import argparse
import multiprocessing
import os
import random
import subprocess
import sys

from generate import write_batch
from session_model import play, split_lines

ALONE = 300  # sessions with a process of their own
TOGETHER = 50  # sessions that share a process
PATIENCE = 60  # seconds for one process


def run(bench, session):
    """The program's output, and what was wrong with its end, if anything."""
    try:
        done = subprocess.run([bench], input=session, capture_output=True, timeout=PATIENCE)
    except subprocess.TimeoutExpired:
        return b"", f"did not end within {PATIENCE} seconds"
    if done.returncode != 0:
        return done.stdout, f"ended with status {done.returncode}: {done.stderr.decode(errors='replace').strip()}"
    return done.stdout, ""


def try_batch(job):
    """Writes some sessions and runs them in one process: how many lines, and the input if it differs."""
    bench, seed, first, count = job
    session, expected = write_batch(seed, first, count)
    output, wrong = run(bench, session)
    lines = expected.count(b"\n")
    return first, count, lines, session if output != expected or wrong else None


def jobs(bench, seed, sessions):
    first = 0
    while first < sessions:
        count = 1 if first < ALONE else min(TOGETHER, sessions - first)
        yield bench, seed, first, count
        first += count


# Showing a difference.


def differs(bench, session):
    output, wrong = run(bench, session)
    return output != play(session) or wrong != ""


def first_difference(one, other):
    """The number of the first line that differs, from 0."""
    for number, (a, b) in enumerate(zip(one, other)):
        if a != b:
            return number
    return min(len(one), len(other))


def shrink(bench, session):
    """Leaves lines out as long as the outputs still differ."""
    ending = b"\n" if session.endswith(b"\n") or differs(bench, session + b"\n") else b""

    def still(lines):
        return bool(lines) and differs(bench, b"\n".join(lines) + ending)

    lines = split_lines(session)
    output, _ = run(bench, session)
    until = first_difference(split_lines(output), split_lines(play(session))) + 1
    if still(lines[:until]):
        lines = lines[:until]
    size = len(lines)
    shorter = True
    while size > 1 or shorter:
        size = max(1, size // 2)
        shorter = False
        place = 0
        while place < len(lines):
            fewer = lines[:place] + lines[place + size :]
            if still(fewer):
                lines = fewer
                shorter = True
            else:
                place += size
    return b"\n".join(lines) + ending


def shown(line):
    """A line with its odd bytes escaped."""
    return repr(line)[2:-1]


def show(bench, session):
    lines = split_lines(session)
    output, wrong = run(bench, session)
    got, expected = split_lines(output), split_lines(play(session))
    width = max(len(shown(line)) for line in lines) + 2
    print(f"{'line':<{width}}{'bench':<16}model")
    for number in range(max(len(lines), len(got), len(expected))):
        cells = [shown(column[number]) if number < len(column) else "" for column in (lines, got, expected)]
        mark = "" if cells[1] == cells[2] else "  <- differs"
        print(f"{cells[0]:<{width}}{cells[1]:<16}{cells[2]}{mark}")
    if not session.endswith(b"\n"):
        print("the last line has no line feed")
    if not output.endswith(b"\n") and output:
        print("the output does not end with a line feed")
    if wrong:
        print(f"the program {wrong}")


def main():
    parser = argparse.ArgumentParser(description="Compares the program bench with the model.")
    parser.add_argument("bench", help="the program")
    parser.add_argument("--sessions", type=int, default=20000)
    parser.add_argument("--seed", default=None, help="fresh sessions each time if none is given")
    parser.add_argument("--jobs", type=int, default=os.cpu_count())
    asked = parser.parse_args()
    bench = os.path.abspath(asked.bench)
    if not os.access(bench, os.X_OK):
        parser.error(f"no program {asked.bench}")
    seed = asked.seed or str(random.SystemRandom().randrange(10**9))
    print(f"seed {seed}", flush=True)
    sessions = lines = told = 0
    with multiprocessing.Pool(asked.jobs) as pool:
        for first, count, more, differing in pool.imap(try_batch, jobs(bench, seed, asked.sessions)):
            sessions += count
            lines += more
            if differing is not None:
                pool.terminate()
                print(f"sessions {first} to {first + count - 1} of seed {seed} differ; cut down:")
                show(bench, shrink(bench, differing))
                print(f"{sessions} sessions, {lines} lines, 1 difference")
                return 1
            if sessions - told >= 1000:
                told = sessions
                print(f"{sessions} sessions so far", flush=True)
    print(f"{sessions} sessions, {lines} lines, 0 differences")
    return 0


if __name__ == "__main__":
    sys.exit(main())
