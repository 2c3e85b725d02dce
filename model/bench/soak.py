#!/usr/bin/env python3
"""Plays fresh random sessions against the model for as long as wanted.

    soak.py BENCH [--minutes M] [--lines N] [--jobs J]

It ends with Ctrl-C or SIGTERM, after M minutes or N lines, or at a difference, which is shown as compare.py does.
Each process plays rounds of sessions; a round has a seed of its own, by which compare.py repeats it.
"""

import argparse
import itertools
import multiprocessing
import multiprocessing.connection
import os
import signal
import sys
import time

from compare import differs, jobs, show, shrink, try_batch

ROUND = 2000  # sessions of one seed
STOPS = (signal.SIGINT, signal.SIGTERM)
OFTEN = 2  # seconds between progress lines on a terminal
SELDOM = 60  # and elsewhere


def fresh_seed():
    return str(int.from_bytes(os.urandom(4), "big"))


# Playing, in several processes.


def work(bench, seed, parent, stop, results):
    """Plays round after round until it is told to stop, or its parent is gone."""
    for number in STOPS:
        signal.signal(number, signal.SIG_IGN)  # the batch that is played is brought to its end
    for turn in itertools.count():
        for job in jobs(bench, f"{seed}.{turn}", ROUND):
            if stop.is_set() or os.getppid() != parent:
                return
            results.send((f"{seed}.{turn}", *try_batch(job)))


def start_workers(bench, seed, count, stop):
    """The processes, and for each the pipe that its results come through."""
    workers, pipes = [], []
    for number in range(count):
        pipe, results = multiprocessing.Pipe(duplex=False)
        given = (bench, f"{seed}.{number}", os.getpid(), stop, results)
        worker = multiprocessing.Process(target=work, args=given)
        worker.start()
        results.close()  # so that the pipe ends with the process
        workers.append(worker)
        pipes.append(pipe)
    return workers, pipes


# Telling how far it is.


class Progress:
    def __init__(self):
        self.began = self.told = time.monotonic()
        self.sessions = 0
        self.lines = 0
        self.differing = []
        self.terminal = sys.stdout.isatty()
        self.width = 0

    def add(self, seed, first, count, lines, differing):
        self.sessions += count
        self.lines += lines
        if differing is not None:
            self.differing.append((seed, first, count, differing))

    def minutes(self):
        return (time.monotonic() - self.began) / 60

    def totals(self):
        found = len(self.differing)
        return f"{self.sessions} sessions, {self.lines} lines, {found} difference{'' if found == 1 else 's'}"

    def tell(self):
        """A progress line, where it is time for one; on a terminal it takes the place of the one before."""
        now = time.monotonic()
        if now - self.told < (OFTEN if self.terminal else SELDOM):
            return
        self.told = now
        line = f"{self.totals()}, {self.pace()}"
        if self.terminal:
            print(f"\r{line:<{self.width}}", end="", flush=True)
            self.width = len(line)
        else:
            print(line, flush=True)

    def pace(self):
        return f"{self.lines / (60 * self.minutes()):.0f} lines a second"

    def clear(self):
        """Takes the progress line off the terminal."""
        if self.width:
            print(f"\r{'':<{self.width}}\r", end="")


def show_difference(bench, seed, first, count, session):
    print(f"sessions {first} to {first + count - 1} of seed {seed} differ; to repeat them:")
    print(f"    compare.py {bench} --seed {seed} --sessions {first + count}", flush=True)
    if differs(bench, session):
        print("cut down:")
        show(bench, shrink(bench, session))
    else:
        print("but not when they are played again")


def soak(bench, seed, asked, progress, stopped):
    """Plays until there is a reason to stop; answers the statuses of processes that failed."""
    stop = multiprocessing.Event()
    workers, pipes = start_workers(bench, seed, asked.jobs, stop)
    while pipes:
        for pipe in multiprocessing.connection.wait(pipes, timeout=0.2):
            try:
                progress.add(*pipe.recv())
            except EOFError:
                pipes.remove(pipe)
        ended = len(pipes) < len(workers)
        enough = progress.minutes() >= asked.minutes or progress.lines >= asked.lines
        if ended or enough or stopped or progress.differing:
            stop.set()
        progress.tell()
    for worker in workers:
        worker.join()
    return [worker.exitcode for worker in workers if worker.exitcode != 0]


def main():
    parser = argparse.ArgumentParser(description="Plays fresh sessions against the model until it is stopped.")
    parser.add_argument("bench", help="the program")
    parser.add_argument("--minutes", type=float, default=float("inf"), help="stop after so many minutes")
    parser.add_argument("--lines", type=int, default=float("inf"), help="stop after so many lines")
    parser.add_argument("--jobs", type=int, default=os.cpu_count(), help="processes, by default one for each core")
    asked = parser.parse_args()
    bench = os.path.abspath(asked.bench)
    if not os.access(bench, os.X_OK):
        parser.error(f"no program {asked.bench}")
    if asked.jobs < 1:
        parser.error("at least one process is needed")
    stopped = []
    handlers = [signal.signal(number, lambda number, frame: stopped.append(number)) for number in STOPS]
    seed = fresh_seed()
    print(f"seed {seed}", flush=True)
    progress = Progress()
    failed = soak(bench, seed, asked, progress, stopped)
    for number, handler in zip(STOPS, handlers):
        signal.signal(number, handler)
    progress.clear()
    totals = f"{progress.totals()}, {progress.pace()}"
    for status in failed:
        print(f"a process of the comparison ended with status {status}")
    if progress.differing:
        show_difference(bench, *progress.differing[0])
    print(totals)
    return 1 if failed or progress.differing else 0


if __name__ == "__main__":
    sys.exit(main())
