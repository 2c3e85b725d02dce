#!/usr/bin/env python3
"""Random sessions for the program `bench`, played on the model while they are written.

    generate.py --sessions N --seed S --out DIR    N sessions with their outputs, in files
    generate.py --sessions N --seed S --tally      what N sessions reach
    generate.py --stored                           one session that reaches everything, on standard output
    generate.py --stored --tally                   what that session reaches
"""

import argparse
import heapq
import os
import random
import sys
from collections import Counter

from random_lines import any_board, bad_opening, damaged_frame, foreign_frame, forged_of_length, good_opening, joined
from random_lines import junk, listed_board, long_opening, steady_board, unreadable_line
from session_model import KINDS, LONGEST_LINE, Bench
from tally import Tally, goals

STORED_SEED = "stored"
STORED_LINES = 2000


class Player:
    """Writes session lines and has the model answer each at once, so that it knows what was posted."""

    def __init__(self, rng, bench=None, tally=None):
        self.rng = rng
        self.tally = tally
        self.bench = bench or Bench(*([tally.note] if tally else []))
        if tally:
            tally.bench = self.bench
        self.lines = []
        self.labels = []
        self.answers = []

    @property
    def group(self):
        return self.bench.group

    def say(self, line, label=None):
        """Writes a line; answers whether it was not refused."""
        assert b"\n" not in line
        if self.tally:
            self.tally.before(line)
        answer = self.bench.answer(line)
        self.lines.append(line)
        self.labels.append(label)
        self.answers.append(answer)
        if self.tally:
            self.tally.after(line, answer, label)
        return answer.startswith(b"0", 2)

    # Lines that are mostly refused.

    def say_unreadable(self):
        fault, line, letter = unreadable_line(self.rng, self.group)
        self.say(line, f"{fault}, line {letter.decode()}")

    def say_of_length(self):
        rng = self.rng
        length = rng.choice((119, 120, 120, 120, 121, 121))
        line = long_opening(rng, length) if rng.random() < 0.4 else forged_of_length(rng, self.group, length)
        if line is not None:
            self.say(line, f"line {line[:1].decode()} of {length} bytes")

    def say_damaged(self):
        rng, group = self.rng, self.group
        if group is None or group.method == "p":
            self.say(joined(b"f", any_board(rng, group), any_board(rng, group), b"1,1,1,1,1"))
            return
        port = listed_board(rng, group) if rng.random() < 0.95 else any_board(rng, group)
        to = steady_board(rng, group) if rng.random() < 0.95 else any_board(rng, group)
        make = rng.choice((damaged_frame, damaged_frame, damaged_frame, foreign_frame, foreign_frame))
        rest = make(rng, group, port)
        if rng.random() < 0.1:
            rest = junk(rng, rng.choice((0, 1, 2, 5, 10, 20)))
        self.say(joined(b"f", to, port, rest)[:LONGEST_LINE])

    def say_call(self):
        rng, group = self.rng, self.group
        letter = rng.choice("sccff")
        to, sender = any_board(rng, group), any_board(rng, group)
        if letter == "s":
            self.say(joined(b"s", to))
        elif letter == "c":
            kind, value = rng.randint(0, 6), rng.randint(0, 9)
            if group is not None and rng.random() < 0.6:
                if rng.random() < 0.7:
                    started = [i for i, board in enumerate(group.boards) if board is not None]
                    sender = rng.choice(started) if started else sender
                board = group.boards[sender] if sender < len(group.boards) else None
                if board is not None:
                    kind, value = rng.choice(board.posted)
            if rng.random() < 0.2:
                kind, value = rng.choice(((kind + 256, value), (kind, value + 256), (kind, 65535), (kind, value + 1)))
            self.say(joined(b"c", to, sender, kind % 65536, value % 65536))
        else:
            rest = b"1,1,%d,%d,%d" % (sender, rng.randint(1, 5), rng.randint(0, 8))
            if rng.random() < 0.3:
                rest = junk(rng, rng.randint(0, 12))
            self.say(joined(b"f", to, sender, rest))

    def say_bad_opening(self):
        rng = self.rng
        self.say(bad_opening(rng))

    def noise(self):
        """A line that mostly changes nothing."""
        which = self.rng.random()
        if which < 0.35:
            self.say_damaged()
        elif which < 0.7:
            self.say_call()
        elif which < 0.85:
            self.say_unreadable()
        elif which < 0.95:
            self.say_bad_opening()
        else:
            self.say_of_length()


# Plays: boards start, words are on their way for random times, listed boards lie or fall silent.


class Pace:
    """How long words are on their way, at random, by receiver, sender, kind and value."""

    def __init__(self, rng, group, focus, sides):
        self.rng = rng
        crew = len(group.boards)
        boards = range(crew)
        style = rng.choice(("even", "even", "slow receiver", "slow sender", "halves", "wild"))
        one = rng.randrange(crew)
        half = rng.getrandbits(crew)
        self.link = {}
        for to in boards:
            for sender in boards:
                factor = 1.0
                if style == "slow receiver" and to == one or style == "slow sender" and sender == one:
                    factor = 15.0
                elif style == "halves" and (half >> to ^ half >> sender) & 1:
                    factor = 10.0
                elif style == "wild":
                    factor = 10 ** rng.uniform(-1, 1)
                self.link[to, sender] = factor
        if focus is not None:
            for sender in boards:
                self.link[focus, sender] /= 20
        self.kinds = {(to, kind): 1.0 for to in boards for kind in range(1, 6)}
        if rng.random() < 0.6:
            slow = rng.choice((0.3, 0.6, 1.0))
            for key in self.kinds:
                if rng.random() < slow:
                    self.kinds[key] = rng.choice((0.1, 1.0, 5.0, 20.0))
        self.values = {(to, value): 1.0 for to in boards for value in range(9)}
        if sides is not None:
            strength = rng.choice((3, 10, 30))
            for to, value in self.values:
                self.values[to, value] = 0.2 if value == sides[to] else strength
        elif rng.random() < 0.5:
            for key in self.values:
                self.values[key] = rng.choice((0.2, 1.0, 1.0, 6.0))

    def delay(self, to, sender, kind, value):
        return self.rng.expovariate(1) * self.link[to, sender] * self.kinds[to, kind] * self.values[to, value]


class Play:
    """One group from its opening on."""

    def __init__(self, player, noise=0.03, again=0.08, focus=None):
        self.player = player
        self.rng = rng = player.rng
        self.group = group = player.group
        self.noise = noise
        self.again = again
        self.now = 0.0
        self.heap = []
        self.order = 0
        crew = range(len(group.boards))
        self.liars = [i for i in crew if group.listed(i)] if group.method == "e" else []
        self.honest = [i for i in crew if i not in self.liars]
        self.silent = set()  # links of plain listed boards that never carry a word
        self.sent = [0 for _ in crew]  # how many of its words are on their way or delivered
        self.kinds = KINDS[group.method, group.depth]
        self.values = sorted({0, *group.starts})
        self.sides = self.take_sides() if rng.random() < 0.5 else None
        self.pace = Pace(rng, group, focus, self.sides)
        self.truth = {}  # liar that mirrors -> kind -> how often it repeats the true value
        self.held = []  # words held back from boards that play a role
        self.roles = {}  # board -> role
        self.target = 0
        if group.method == "e" and rng.random() < 0.5:
            self.give_roles()
        self.plan_starts()
        for liar in self.liars:
            self.plan_lies(liar)

    def take_sides(self):
        """A value for each board that comes early there, and that liars support."""
        rng = self.rng
        one = rng.choice(self.values[1:])
        other = rng.choice(self.values)
        share = rng.choice((0.3, 0.5, 0.7))
        return [one if rng.random() < share else other for _ in self.group.boards]

    def later(self, delay, what, *details):
        self.order += 1
        heapq.heappush(self.heap, (self.now + delay, self.order, what, details))

    def plan_starts(self):
        rng, group = self.rng, self.group
        spread = rng.choice((0, 0, 1, 3, 30))
        falling = rng.choice(("none", "none", "never start", "some links", "any"))
        for board in self.honest:
            if group.listed(board):
                if falling == "never start" or falling == "any" and rng.random() < 0.5:
                    continue
                if falling in ("some links", "any"):
                    self.silent |= {(to, board) for to in self.honest if rng.random() < 0.6}
            self.later(spread * rng.random(), "start", board)

    def give_roles(self):
        """Most boards are to see the target character alone, a few to see several values or no echo."""
        rng = self.rng
        starts = Counter(self.group.starts[i] for i in self.honest)
        self.target = max(starts, key=lambda value: (starts[value], rng.random()))
        pairs = ("pure", "mixed"), ("pure", "mixed"), ("pure", "late"), ("mixed", "late"), ("free", "late")
        most, few = rng.choice(pairs)
        self.roles = {board: most for board in self.honest}
        odd = rng.randint(1, max(1, len(self.liars)))
        for board in rng.sample(self.honest, min(odd, len(self.honest))):
            self.roles[board] = few

    # Lies.

    def plan_lies(self, liar):
        rng, group = self.rng, self.group
        styles = ["silent", "wild", "two faces", "mirror", "mirror", "every echo"]
        if self.sides is not None:
            styles += ["sides"] * 6
        if self.roles:
            styles += ["roles"] * 20
        style = rng.choice(styles)
        echoes = style == "every echo" or style in ("sides", "two faces", "roles") and rng.random() < 0.7
        span = rng.choice((1, 4, 15))
        exact = rng.choice((0.7, 0.9, 1.0))
        faces = rng.choice(self.values), rng.choice(self.values)
        if style == "mirror":
            self.truth[liar] = {kind: rng.choice((0.2, 0.6, 0.9)) for kind in range(1, 6)}
        for to in self.honest:
            if style == "wild":
                for _ in range(rng.randint(0, 2 * self.kinds)):
                    value = rng.randint(0, group.characters) if rng.random() < 0.5 else rng.choice(self.values)
                    self.later(rng.random() * span, "lie", to, liar, rng.randint(1, self.kinds), value)
            elif style in ("two faces", "sides"):
                face = self.sides[to] if style == "sides" else rng.choice(faces)
                for kind in range(1, self.kinds + 1):
                    value = face if rng.random() < exact else rng.choice(self.values)
                    self.later(rng.random() * span, "lie", to, liar, kind, value)
            elif style == "roles":
                for kind in range(1, self.kinds + 1):
                    value = self.target
                    if self.roles[to] != "pure" and (kind > 3 or rng.random() < 0.5):
                        value = rng.choice((0, rng.randint(0, group.characters)))
                    self.later(rng.random() * span, "lie", to, liar, kind, value)
            if echoes:
                for value in self.values:
                    if rng.random() < 0.8:
                        self.later(rng.random() * span, "lie", to, liar, 1, value)

    def mirror_lies(self, kind, value):
        """A liar repeats what a steady board just posted, to some with another value."""
        rng = self.rng
        for liar, truth in self.truth.items():
            for to in self.honest:
                if rng.random() < 0.4:
                    said = value if rng.random() < truth[kind] else rng.choice(self.values)
                    self.later(self.pace.delay(to, liar, kind, said), "lie", to, liar, kind, said)

    # Running.

    def run(self, limit=None, until=None):
        """Plays until nothing is on its way, `limit` lines are written or `until` says so."""
        first = len(self.player.lines)
        while (self.heap or self.held) and self.player.group is self.group:
            if limit is not None and len(self.player.lines) - first >= limit:
                return
            if until is not None and until():
                return
            if not self.heap:
                self.let_go()
            self.now, _, what, details = heapq.heappop(self.heap)
            if what != "start" and self.holds(*details):
                self.held.append((what, details))
                continue
            getattr(self, what)(*details)
            if self.rng.random() < self.noise:
                self.player.noise()
                for board in self.honest:
                    self.spread(board)

    def holds(self, to, sender, kind, value):
        """Whether a word is held back from a board that is to play its role.

        A pure board is kept from approving another value than the target, a mixed one from all but echoes
        until it is mixed, a late one from all echoes, until it decides or nothing else is on its way.
        """
        board = self.group.boards[to]
        role = self.roles.get(to)
        if role is None or board is None or board.decision is not None:
            return False
        if role == "pure":
            return kind == 1 and value != self.target and board.rule.ample(board.echoes[value] | 2**sender)
        if role == "mixed":
            return kind > 1 and not board.mixed()
        return role == "late" and kind == 1

    def let_go(self):
        self.roles = {}
        self.rng.shuffle(self.held)
        for what, details in self.held:
            self.later(self.rng.random(), what, *details)
        self.held = []

    def start(self, board):
        self.player.say(joined(b"s", board))
        self.spread(board)

    def waits(self, what, to, *details):
        """A word for a board that has not started waits for that, but is sometimes tried."""
        if self.group.boards[to] is not None:
            return False
        if any(entry[2] == "start" and entry[3] == (to,) for entry in self.heap):
            self.later(1 + self.rng.random() * 5, what, to, *details)
        return self.rng.random() > 0.02

    def carry(self, to, sender, kind, value):
        if self.waits("carry", to, sender, kind, value):
            return
        self.player.say(joined(b"c", to, sender, kind, value))
        self.spread(to)
        if self.rng.random() < self.again:
            self.later(self.pace.delay(to, sender, kind, value), "carry", to, sender, kind, value)

    def lie(self, to, liar, kind, value):
        if self.waits("lie", to, liar, kind, value):
            return
        self.player.say(joined(b"f", to, liar, 1, 1, liar, kind, value))
        self.spread(to)

    def spread(self, sender):
        """Puts the words that a board newly posted on their way to all."""
        board = self.group.boards[sender]
        if board is None:
            return
        for kind, value in board.posted[self.sent[sender] :]:
            for to in self.honest:
                if (to, sender) not in self.silent:
                    self.later(self.pace.delay(to, sender, kind, value), "carry", to, sender, kind, value)
            self.mirror_lies(kind, value)
        self.sent[sender] = len(board.posted)

    def undecided(self):
        """The unlisted boards that have not decided."""
        boards = [self.group.boards[i] for i in range(len(self.group.boards)) if not self.group.listed(i)]
        return [board for board in boards if board is None or board.decision is None]

    def any_decided(self):
        return any(board is not None and board.decision is not None for board in self.group.boards)


# Sessions.


def play_session(player):
    """A group that is played until all have decided, or for a while."""
    rng = player.rng
    player.say(good_opening(rng).line())
    play = Play(player, noise=rng.choice((0, 0.02, 0.1)), again=rng.choice((0, 0.05, 0.2)))
    if rng.random() < 0.75:
        play.run()
    else:
        play.run(limit=rng.randint(5, 150))


def first_decision_session(player):
    """A group that is played until the first board decides."""
    rng = player.rng
    player.say(good_opening(rng).line())
    play = Play(player, noise=0.01, again=0.02, focus=rng.randrange(len(player.group.boards)))
    play.run(until=play.any_decided, limit=250)


def calls_session(player):
    """Many refused calls around a short play."""
    rng = player.rng
    for _ in range(rng.randint(0, 6)):
        player.say_call() if rng.random() < 0.7 else player.say_bad_opening()
    player.say(good_opening(rng, crew=rng.randint(1, 7)).line())
    play = Play(player, noise=rng.choice((0.5, 0.7)))
    play.run(limit=rng.randint(20, 80))


def frames_session(player):
    """Damaged and foreign frames from listed boards."""
    rng = player.rng
    opening = good_opening(rng, crew=rng.randint(4, 16), method="e")
    while opening.bad == 0:
        opening = good_opening(rng, crew=rng.randint(4, 16), method="e")
    player.say(opening.line())
    for board in range(opening.crew):
        if rng.random() < 0.9:
            player.say(joined(b"s", board))
    for _ in range(rng.randint(5, 40)):
        player.say_damaged()


def openings_session(player):
    """Openings, most of them refused."""
    rng = player.rng
    for _ in range(rng.randint(5, 25)):
        if rng.random() < 0.2:
            player.say(good_opening(rng).line())
        elif rng.random() < 0.3:
            player.say_call()
        else:
            player.say_bad_opening()


def odd_lines_session(player):
    """Unreadable lines, lines of just the longest length, and any bytes."""
    rng = player.rng
    if rng.random() < 0.7:
        player.say(good_opening(rng, crew=rng.randint(1, 5)).line())
        Play(player, noise=0).run(limit=rng.randint(0, 10))
    for _ in range(rng.randint(3, 20)):
        which = rng.random()
        if which < 0.1:
            player.say(b"", "empty line")
        elif which < 0.25:
            player.say(junk(rng, rng.choice((1, 2, 5, 12, 119, 120, 121))), "any bytes")
        elif which < 0.45:
            player.say_of_length()
        else:
            player.say_unreadable()


KINDS_OF_SESSION = (
    (55, play_session),
    (10, first_decision_session),
    (12, calls_session),
    (8, frames_session),
    (8, openings_session),
    (7, odd_lines_session),
)


def write_session(player):
    """One session, mostly of one kind."""
    rng = player.rng
    weights, kinds = zip(*KINDS_OF_SESSION)
    for write in rng.choices(kinds, weights, k=rng.choice((1, 1, 1, 1, 2))):
        if rng.random() < 0.1:
            player.noise()
        write(player)


def seeded(seed, index):
    return random.Random(f"{seed}/{index}")


def session_bytes(rng, lines):
    """Lines with their line feeds; the last one is sometimes left out."""
    session = b"".join(line + b"\n" for line in lines)
    if lines and lines[-1] != b"" and rng.random() < 0.2:
        return session[:-1]
    return session


def write_batch(seed, first, count, tally=None):
    """`count` sessions one behind the other in one input, and the output of the model."""
    player = Player(None, tally=tally)
    for index in range(first, first + count):
        player.rng = seeded(seed, index)
        write_session(player)
    output = b"".join(answer + b"\n" for answer in player.answers)
    return session_bytes(player.rng, player.lines), output


# The stored session.


def short_session(player, index):
    """A session of few lines."""
    rng = player.rng
    which = index % 8
    turn = index // 8
    if which == 0:
        for method in "pe":
            player.say(good_opening(rng, crew=1 + turn % 16, method=method).line())
        openings_session(player)
    elif which == 1:
        odd_lines_session(player)
    elif which == 2:
        frames_session(player) if turn % 2 else calls_session(player)
    elif which == 3:
        player.say(good_opening(rng, crew=1 + turn % 16, method="p").line())
        play = Play(player, noise=0, again=0, focus=rng.randrange(len(player.group.boards)))
        play.run(until=play.any_decided, limit=60)
    else:
        crew = rng.choice((4, 4, 4, 4, 5, 6, 9)) if which < 7 else rng.choice((3, 4, 5))
        player.say(good_opening(rng, crew=crew, method="e" if which < 7 else None).line())
        play = Play(player, noise=0.01, again=0.03)
        play.run(limit=150)


def opening_calls(player):
    """Calls and refused openings before any group is open."""
    for line in (b"s,0", b"c,0,0,1,1", b"f,0,0,1,1,0,1,1", b"o,p,1,2,1,3,0,1,1", b"s,00"):
        player.say(line)


def thinned(lines, labels, missing):
    """The lines, with their labels, that reach what is missing.

    A refused line changes nothing, so one that reaches nothing new is left out. So is what follows the last
    new thing, before the next group is opened.
    """
    tally = Tally()
    player = Player(None, tally=tally)
    kept, waiting = [], []
    for line, label in zip(lines, labels):
        before = missing & set(tally.counts)
        good = player.say(line, label)
        if good and line[:1] in (b"o", b"g"):
            waiting = []
        if missing & set(tally.counts) != before:
            kept += waiting + [(line, label)]
            waiting = []
        elif good:
            waiting.append((line, label))
    return kept


def write_stored(tally):
    """One session that reaches every goal, from the short sessions that reach most with fewest lines."""
    wanted = set(goals())
    candidates = []
    for index in range(2400):
        reached = Tally()
        player = Player(seeded(STORED_SEED, index), tally=reached)
        short_session(player, index)
        candidates.append((wanted & set(reached.counts), player.lines, player.labels))
    player = Player(None, tally=tally)
    opening_calls(player)
    while True:
        missing = wanted - set(tally.counts)
        candidates = [candidate for candidate in candidates if candidate[0] & missing]
        if not candidates:
            break
        candidates.sort(key=lambda candidate: -len(candidate[0] & missing) / (len(candidate[1]) + 5))
        thin = [thinned(lines, labels, missing & reached) for reached, lines, labels in candidates[:12]]
        sizes = [len(candidates[i][0] & missing) / len(thin[i]) for i in range(len(thin))]
        for line, label in thin[sizes.index(max(sizes))]:
            player.say(line, label)
    for index in range(2400, 4800):
        if len(player.lines) >= STORED_LINES:
            break
        player.rng = seeded(STORED_SEED, index)
        short_session(player, index)
    player.say(b"s,0")
    return b"\n".join(player.lines)


def main():
    parser = argparse.ArgumentParser(description="Random sessions for the program bench.")
    parser.add_argument("--sessions", type=int, default=100)
    parser.add_argument("--seed", default="1")
    parser.add_argument("--out", metavar="DIR", help="write each session and its output into this folder")
    parser.add_argument("--stored", action="store_true", help="write one session that reaches everything")
    parser.add_argument("--tally", action="store_true", help="tell what was reached")
    asked = parser.parse_args()
    tally = Tally()
    if asked.stored:
        session = write_stored(tally)
        if not asked.tally:
            sys.stdout.buffer.write(session)
    elif asked.out:
        os.makedirs(asked.out, exist_ok=True)
        for index in range(asked.sessions):
            session, output = write_batch(asked.seed, index, 1, tally)
            for name, content in (("txt", session), ("out", output)):
                with open(os.path.join(asked.out, f"{index:05}.{name}"), "wb") as file:
                    file.write(content)
    else:
        for first in range(0, asked.sessions, 10):
            write_batch(asked.seed, first, min(10, asked.sessions - first), tally)
    if asked.tally:
        print(tally.report(goals()))


if __name__ == "__main__":
    main()
