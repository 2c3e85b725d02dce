#!/usr/bin/env python3
"""Feeds raw bytes to the programs, and checks how they end and the form of what they write.

    raw_bytes.py [PROGRAM ..] [--quick] [--seed S] [--bin DIR] [--keep DIR]

Whatever comes in, a program ends with status 0 and without complaint, and answers every line as docs/FORMATS.md
says; bench does so in bounded memory. Each input is fed twice: as it is, and behind a good start, so that a program
that stops at a bad first line reads it too. Whether an answer is the right one is not asked here.
"""

import argparse
import itertools
import os
import random
import re
import resource
import shutil
import signal
import sys
import tempfile
import time
from pathlib import Path

sys.dont_write_bytecode = True

ROOT = Path(__file__).resolve().parent.parent
MEGABYTE = 2**20
BLOCK = 65536  # bytes of an input that are made at a time
PATIENCE = 60  # seconds for one run
LARGEST_OUTPUT = 2**28  # bytes; a program that writes without end is stopped there
LONGEST_ANSWER = 200  # bytes; no line of any program has as many
LIMIT = 120  # bytes of a session line


class Wrong(Exception):
    """What is wrong with a run."""


# The programs: what a good line is, and what has to come out.


class Program:
    name = ""
    most_memory = None  # in bytes, where a bound is promised
    starts = (b"",)  # lines that an input can begin with; those of the first are good
    start_answer = b""  # what is answered to the first line of the first
    alphabet = b""  # the bytes of good lines, some more often than others

    def good_line(self, rng):
        """A line that can be read, without its line feed."""
        raise NotImplementedError

    def check(self, output, lines):
        """Raises Wrong where the output is none that so many lines can have."""
        raise NotImplementedError


def expect(pattern, line, number):
    """The match of an output line."""
    match = pattern.fullmatch(line)
    if match is None:
        raise Wrong(f"output line {number} is {line[:60]!r}")
    return match


def expect_count(count, lines):
    if count != lines:
        raise Wrong(f"{count} answers to {lines} lines")


def numbers(*fields):
    return b",".join(b"%d" % field for field in fields)


class Bench(Program):
    name = "bench"
    most_memory = 32 * MEGABYTE
    starts = (b"o,e,2,4,1,3,8,1,2,1,3\ns,0\ns,1\ns,2\n", b"g,p,2,3,1,3,1,1,1,2,3\ns,0\n", b"o,p,1,1,0,3,0,3\n")
    start_answer = b"o,0,0,-,-\n"
    alphabet = b"01230123456789,,,,,,,,scfogpe\n\n\n"
    answer = re.compile(
        rb"([og],0,0,-,-|[scf],0,[0-6],(-,-|0,0|[1-8],[12])|[ogscf],([1-9]|1[0-9]|2[1-8]),0,-,-|\?,29,0,-,-)\n"
    )

    def good_line(self, rng):
        to, sender, kind, value = rng.randrange(4), rng.randrange(4), rng.randint(1, 5), rng.randint(0, 3)
        which = rng.random()
        if which < 0.1:
            return b"s," + numbers(to)
        if which < 0.5:
            return b"c," + numbers(to, sender, kind, value)
        if which < 0.98:
            return b"f," + numbers(to, 3, 1, 1, 3, kind, value)
        if which < 0.99:
            return rng.choice((b"o,e,2,4,1,3,8,1,2,1,3", b"o,e,1,4,1,3,8,3,2,1,1", b"g,p,2,3,1,3,1,1,1,2,3"))
        crew = rng.randint(50, 56)
        starts = [1] * crew
        starts[0] = rng.choice((1, 10))
        return b"o,e," + numbers(1, crew, 0, 3, 0, *starts)  # 115 to 128 bytes

    def check(self, output, lines):
        number = 0
        for number, line in enumerate(output, 1):
            expect(self.answer, line, number)
        expect_count(number, lines)


class Frames(Program):
    name = "frames"
    starts = (b"1,1,0,1,3\n",)
    start_answer = b"1: word group=1 change=1 sender=0 kind=1 value=3\n"
    alphabet = b"01123456789,,,,,,,,,\n\n"
    answer = re.compile(
        rb"(?P<piece>[0-9]+): ((?P<word>word) group=[0-9]+ change=[0-9]+ sender=[0-9]+ kind=[1-5] value=[0-8]"
        rb"|refused 1[1-4] at [0-9]+)\n"
    )

    def good_line(self, rng):
        return numbers(
            rng.randint(1, 65535), rng.randint(1, 65535), rng.randint(0, 15), rng.randint(1, 5), rng.randint(0, 8)
        )

    def check(self, output, lines):
        number = words = 0
        counts = b""
        for number, line in enumerate(output, 1):
            if number > lines:
                counts += line
                continue
            match = expect(self.answer, line, number)
            if int(match["piece"]) != number:
                raise Wrong(f"output line {number} is of piece {int(match['piece'])}")
            words += match["word"] is not None
        expect_count(min(number, lines), lines)
        if counts != b"%d pieces: %d words, %d refused\n" % (lines, words, lines - words):
            raise Wrong(f"the counts of {lines} pieces, {words} of them words, are {counts[:60]!r}")


class RuleCheck(Program):
    name = "rule_check"
    starts = (b"l,6,3,4,3,12,16,32\n", b"c,4,3,1\n", b"c,16,2,7\n", b"l,1,2,0\n", b"l,6,3,9,1,1,1,1,1,1,1,1,1\n")
    start_answer = b"good\n"
    alphabet = b"00123456789,,,lc\n\n\n"
    first = re.compile(rb"(?P<more>good)\n|refused [1345]\n|unreadable\n")
    further = re.compile(rb"[0-9]{1,5},(strong|-),(ample|-)\n|unreadable\n")

    def good_line(self, rng):
        return numbers(rng.choice((rng.randrange(64), rng.randrange(65536))))

    def check(self, output, lines):
        number = 0
        for number, line in enumerate(output, 1):
            if number > 1:
                expect(self.further, line, number)
            elif not expect(self.first, line, 1)["more"]:
                lines = min(lines, 1)
        expect_count(number, lines)


class BoardBench(Program):
    name = "board_bench"
    starts = (b"e,2,4,3,1,3,7,12,0,3\n", b"p,2,4,2,1,3,7,12,0,3\n", b"p,1,4,2,1,3,7,12,0,3\n")
    start_answer = b"started 1\n"
    alphabet = b"0123712712,,,,,,,,,ep\n\n"
    first = re.compile(rb"started (?P<posted>[0-9]+)\n|refused [1-9]\n|unreadable\n")
    further = re.compile(
        rb"counted (?P<posted>[0-9]+)\n|again 0\n|refused (1[05-9]|1[1-5] at [0-9]+)\n|unreadable\n"
    )
    frame = re.compile(rb"  [0-9]+,[0-9]+,[0-9]+,[1-5],[0-8]\n")
    decided = re.compile(rb"decided (0,0: stay|([1-8]),[12]: (show \2|load \2 and hold))\n")

    def good_line(self, rng):
        port = rng.randrange(4)
        return numbers(port, 7, 12, port, rng.randint(1, 5), rng.randint(0, 3))

    def check(self, output, lines):
        """Behind an answer stand as many frames as it says; behind one of all answers stands a decision."""
        answers = frames = decisions = 0
        counted = False
        for number, line in enumerate(output, 1):
            if frames > 0:
                expect(self.frame, line, number)
                frames -= 1
            elif counted and decisions == 0 and self.decided.fullmatch(line):
                decisions += 1
            else:
                answers += 1
                match = expect(self.first if answers == 1 else self.further, line, number)
                posted = match["posted"]
                frames = int(posted or 0)
                counted = answers > 1 and posted is not None
                if answers == 1 and posted is None:
                    lines = min(lines, 1)
        if frames > 0:
            raise Wrong(f"{frames} frames are missing at the end")
        expect_count(answers, lines)


PROGRAMS = (Bench(), Frames(), RuleCheck(), BoardBench())


# Changes to a line.


def changed(rng, line):
    """One byte is left out, put in, doubled or another one."""
    place = rng.randrange(len(line) + 1)
    here, rest = line[place : place + 1], line[place + 1 :]
    how = rng.randrange(4)
    if how == 0:
        return line[:place] + rest
    if how == 1:
        return line[:place] + rng.choice((b"0", b"1", b",", b" ", b"\r", b"\0", b"-", rng.randbytes(1))) + line[place:]
    if how == 2:
        return line[:place] + here + here + rest
    return line[:place] + rng.choice((b"0", b"9", b",", b".", b"\xff", rng.randbytes(1))) + rest


def stretched(rng, line, length):
    """One byte is repeated until the line has this length."""
    place = rng.randrange(len(line) or 1)
    return line[:place] + line[place : place + 1] * max(1, length - len(line) + 1) + line[place + 1 :]


def many_digits(rng, line):
    """One number becomes one of hundreds of digits."""
    spans = [number.span() for number in re.finditer(rb"[0-9]+", line)]
    begin, end = rng.choice(spans or [(0, 0)])
    digits = rng.choice((b"0123456789", b"0123456789", b"0", b"1", b"9"))
    return line[:begin] + bytes(rng.choices(digits, k=rng.choice((105, rng.randint(100, 999))))) + line[end:]


# The inputs, each made block by block.


class Size:
    def __init__(self, quick):
        self.bytes = MEGABYTE // 4 if quick else 10 * MEGABYTE  # of a long line, and of random bytes
        self.lines = 20_000 if quick else 1_000_000  # of a huge input
        self.shorts = 20 if quick else 250  # how many short inputs


def repeated(piece, count):
    while count > 0:
        yield piece * min(count, BLOCK)
        count -= BLOCK


def any_bytes(rng, count):
    while count > 0:
        yield rng.randbytes(min(count, BLOCK))
        count -= BLOCK


def drawn(rng, program, count):
    """Bytes from the program's alphabet."""
    letters = program.alphabet
    table = bytes(letters[i % len(letters)] for i in range(256))
    for block in any_bytes(rng, count):
        yield block.translate(table)


def without_feeds(blocks):
    for block in blocks:
        yield block.replace(b"\n", b",")


def good_lines(rng, program, count):
    lines = [program.good_line(rng) + b"\n" for _ in range(min(count, 2000))]
    while count > 0:
        yield b"".join(rng.choices(lines, k=min(count, 2000)))
        count -= 2000


def nothing(rng, program, size):
    return ()


def random_bytes(rng, program, size):
    yield from any_bytes(rng, size.bytes)


def bytes_of_format(rng, program, size):
    yield from drawn(rng, program, size.bytes)


def changed_lines(rng, program, size):
    for _ in range(size.lines // 10):
        yield changed(rng, program.good_line(rng)) + b"\n"


def long_lines(rng, program, size):
    """Good lines follow each long one."""
    for blocks in (drawn(rng, program, size.bytes), any_bytes(rng, size.bytes), repeated(b"1", size.bytes)):
        yield from without_feeds(blocks)
        yield b"\n"
        yield from good_lines(rng, program, 100)


def no_feed(rng, program, size):
    yield from without_feeds(drawn(rng, program, size.bytes))


def no_feed_random(rng, program, size):
    yield from without_feeds(any_bytes(rng, size.bytes))


def many_numbers(rng, program, size):
    """The first line of a start, which then goes on with number after number."""
    yield program.starts[0].splitlines()[0]
    yield from repeated(b",1", size.bytes // 2)


def only_feeds(rng, program, size):
    yield from repeated(b"\n", size.lines)


def only_nuls(rng, program, size):
    yield from repeated(b"\0", size.bytes)


def near_limit(rng, program, size):
    for _ in range(size.lines // 20):
        yield stretched(rng, program.good_line(rng), LIMIT + rng.randint(-3, 4)) + b"\n"


def hundreds_of_digits(rng, program, size):
    for _ in range(size.lines // 100):
        yield many_digits(rng, program.good_line(rng)) + b"\n"


def many_lines(rng, program, size):
    yield from good_lines(rng, program, size.lines)


def feed_missing(rng, program, size):
    yield from good_lines(rng, program, 1000)
    yield program.good_line(rng)


def short(rng, program, size):
    """A start and some lines, with faults; sometimes the beginning is missing, or the last line feed."""
    lines = rng.choice(program.starts).splitlines() + [program.good_line(rng) for _ in range(rng.randint(0, 8))]
    for _ in range(rng.choice((0, 1, 1, 2, 4))):
        i = rng.choice((0, rng.randrange(len(lines))))
        how = rng.random()
        if how < 0.7:
            lines[i] = changed(rng, lines[i])
        elif how < 0.85:
            lines[i] = many_digits(rng, lines[i])
        else:
            lines[i] = stretched(rng, lines[i], LIMIT + rng.randint(-3, 4))
    whole = b"\n".join(lines) + rng.choice((b"\n", b"", b"\n\n"))
    yield whole[rng.choice((0, 0, 0, rng.randrange(len(whole)))) :]


INPUTS = {
    "empty": nothing,
    "random bytes": random_bytes,
    "bytes of the format": bytes_of_format,
    "lines with a byte changed": changed_lines,
    "very long lines": long_lines,
    "no line feed": no_feed,
    "no line feed, random bytes": no_feed_random,
    "a line of very many numbers": many_numbers,
    "only line feeds": only_feeds,
    "only NULs": only_nuls,
    "lines of about 120 bytes": near_limit,
    "hundreds of digits": hundreds_of_digits,
    "very many lines": many_lines,
    "last line feed missing": feed_missing,
}


def inputs_for(program, size):
    """For each input its name, what makes it, how many there are, and the start in front of it."""
    for name, make in INPUTS.items():
        yield name, make, 1, b""
        yield f"{name}, good start", make, 1, program.starts[0]
    yield f"{size.shorts} short inputs", short, size.shorts, b""


def write_input(path, start, blocks):
    """Writes an input; answers how many bytes and how many lines it has."""
    length = lines = 0
    last = b"\n"
    with open(path, "wb") as file:
        for block in itertools.chain((start,), blocks):
            file.write(block)
            length += len(block)
            lines += block.count(b"\n")
            last = block[-1:] or last
    return length, lines + (last != b"\n")


# Running.


def become(path, folder):
    """Turns this process into the program; never returns."""
    try:
        resource.setrlimit(resource.RLIMIT_FSIZE, (LARGEST_OUTPUT, LARGEST_OUTPUT))
        written = os.O_WRONLY | os.O_CREAT | os.O_TRUNC
        for number, name, how in ((0, "in", os.O_RDONLY), (1, "out", written), (2, "err", written)):
            os.dup2(os.open(folder / name, how), number)
        os.execv(path, [path])
    finally:
        os._exit(127)


def run(path, folder):
    """Runs a program: its status, None if it did not end, the seconds and its peak memory in bytes.

    The peak is never less than the memory of this process at the fork, so nothing large is held here.
    """
    began = time.monotonic()
    child = os.fork()
    if child == 0:
        become(path, folder)
    try:
        ended = None
        while ended is None and time.monotonic() - began < PATIENCE:
            time.sleep(0.001)
            ended = os.waitid(os.P_PID, child, os.WEXITED | os.WNOHANG | os.WNOWAIT)
        seconds = time.monotonic() - began
    finally:
        os.kill(child, signal.SIGKILL)  # changes nothing for one that has ended
        _, status, usage = os.wait4(child, 0)
    return os.waitstatus_to_exitcode(status) if ended else None, seconds, usage.ru_maxrss * 1024


def check_run(program, start, lines, status, peak, folder):
    """Raises Wrong where anything is."""
    with open(folder / "err", "rb") as file:
        complaint = file.read(100)
    if status is None:
        raise Wrong(f"did not end within {PATIENCE} seconds")
    if status != 0:
        raise Wrong(f"ended with status {status}" + (f", complains {complaint}" if complaint else ""))
    if complaint:
        raise Wrong(f"complains {complaint}")
    with open(folder / "out", "rb") as file:
        output = iter(lambda: file.readline(LONGEST_ANSWER), b"")
        if start:
            first = next(output, b"")
            if first != program.start_answer:
                raise Wrong(f"answers {first} to the good start")
            output = itertools.chain((first,), output)
        program.check(output, lines)
    if program.most_memory is not None and peak > program.most_memory:
        raise Wrong(f"takes more than {program.most_memory // MEGABYTE} MB")


def keep_files(keep, program, name, number, folder):
    """Copies the files of a failure."""
    label = re.sub(r"[^a-z0-9]+", "_", f"{program.name} {name} {number}".lower())
    for end in ("in", "out", "err"):
        shutil.copy(folder / end, keep / f"{label}.{end}")


# The table.


def row(program, name, size, lines, seconds, peak, result):
    return f"{program:<12} {name:<39} {size:>7} {lines:>8} {seconds:>8} {peak:>8}  {result}"


def megabytes(count):
    return f"{count / MEGABYTE:.1f}"


class Row:
    """What came of the inputs of one name."""

    def __init__(self):
        self.bytes = self.lines = self.failures = 0
        self.seconds = 0.0
        self.peak = 0
        self.result = "good"

    def text(self, program, name):
        seconds = f"{self.seconds:.2f}"
        return row(program.name, name, megabytes(self.bytes), self.lines, seconds, megabytes(self.peak), self.result)

    def fail(self, wrong):
        """The first failure is told."""
        if self.failures == 0:
            self.result = str(wrong)
        self.failures += 1


def feed(program, path, size, seed, keep, folder):
    """Feeds a program all its inputs; yields a row for each name."""
    for name, make, count, start in inputs_for(program, size):
        told = Row()
        for number in range(count):
            rng = random.Random(f"{seed}/{program.name}/{name}/{number}")
            length, lines = write_input(folder / "in", start, make(rng, program, size))
            status, seconds, peak = run(path, folder)
            told.bytes += length
            told.lines += lines
            told.seconds += seconds
            told.peak = max(told.peak, peak)
            try:
                check_run(program, start, lines, status, peak, folder)
            except Wrong as wrong:
                told.fail(wrong)
                if keep:
                    keep_files(keep, program, name, number, folder)
        print(told.text(program, name), flush=True)
        yield told


def main():
    parser = argparse.ArgumentParser(description="Feeds raw bytes to the programs.")
    parser.add_argument("programs", nargs="*", metavar="PROGRAM", help="all four if none is named")
    parser.add_argument("--quick", action="store_true", help="smaller inputs")
    parser.add_argument("--seed", default=None, help="fresh inputs each time if none is given")
    parser.add_argument("--bin", type=Path, help="where the programs are, if not in crates/NAME/out")
    parser.add_argument("--keep", type=Path, help="a folder for the files of failures")
    asked = parser.parse_args()
    unknown = set(asked.programs) - {program.name for program in PROGRAMS}
    if unknown:
        parser.error(f"no program is called {', '.join(sorted(unknown))}")
    paths = {}
    for program in PROGRAMS:
        if asked.programs and program.name not in asked.programs:
            continue
        folder = asked.bin or ROOT / "crates" / program.name / "out"
        paths[program] = (folder / program.name).resolve()
        if not os.access(paths[program], os.X_OK):
            parser.error(f"{paths[program]} is not built")
    if asked.keep:
        asked.keep.mkdir(parents=True, exist_ok=True)
    seed = asked.seed or str(random.SystemRandom().randrange(10**9))
    print(f"seed {seed}{' --quick' if asked.quick else ''}")
    size = Size(asked.quick)
    failures = 0
    peaks = []
    with tempfile.TemporaryDirectory() as name:
        folder = Path(name)
        (folder / "in").touch()
        _, _, least = run(shutil.which("true"), folder)
        print(row("program", "input", "MB", "lines", "seconds", "peak MB", "result"))
        for program, path in paths.items():
            rows = list(feed(program, path, size, seed, asked.keep, folder))
            failures += sum(told.failures for told in rows)
            peaks.append(f"{program.name} {megabytes(max(told.peak for told in rows))}")
    print(f"peak MB: {', '.join(peaks)}; less than {megabytes(least)} cannot be told")
    print(f"{failures} failure{'' if failures == 1 else 's'}")
    return 1 if failures else 0


if __name__ == "__main__":
    sys.exit(main())
