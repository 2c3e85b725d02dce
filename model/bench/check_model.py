#!/usr/bin/env python3
"""Checks the model and the generator.

    check_model.py [--sessions N] [--seed S]

1. The sessions kept beside this file have the outputs kept with them.
2. Random sessions keep what the methods promise (Watcher), and refused calls change nothing.
3. The stored session reaches every goal.
4. Each wrong model, the model with one change, is told from the model by the stored session or by random ones.
"""

import argparse
import glob
import os
import random
import re
import sys
import types

import generate
import session_model
from generate import Play, Player, seeded, write_batch, write_session, write_stored
from session_model import KINDS, play
from tally import Tally, goals
from wrong_models import SILENT, WRONG

HERE = os.path.dirname(os.path.abspath(__file__))
ANSWER = re.compile(rb"[ogscf],0,[0-9]+,(-,-|0,0|[1-8],[12])|[ogscf],[1-9][0-9]?,0,-,-|\?,29,0,-,-")


def check_kept_sessions():
    names = sorted(glob.glob(os.path.join(HERE, "sessions", "*.txt")))
    for name in names:
        with open(name, "rb") as session, open(name[:-4] + ".out", "rb") as output:
            assert play(session.read()) == output.read(), name
    print(f"{len(names)} kept sessions agree")


# What the methods promise.


def one_step_apart(a, b):
    """Equal, or (0, 0) and (v, 1), or (v, 1) and (v, 2)."""
    if a == b:
        return True
    (v, g), (w, h) = sorted((a, b), key=lambda decision: decision[1])
    return h - g == 1 and (v == w or (v, g) == (0, 0))


def state(group):
    """Everything that a call can change."""
    if group is None:
        return None
    boards = []
    for board in group.boards:
        if board is not None:
            boards.append({name: value for name, value in vars(board).items() if name not in ("rule", "note")})
        else:
            boards.append(None)
    return repr((id(group), boards))


class Watcher(Player):
    """A player that looks at the group after each line."""

    def __init__(self, rng):
        super().__init__(rng)
        self.refused = 0
        self.looks = random.Random("looks")

    def say(self, line, label=None):
        looks = self.looks.random() < 0.1
        before = state(self.group) if looks else None
        good = super().say(line, label)
        assert ANSWER.fullmatch(self.answers[-1]), self.answers[-1]
        if not good:
            self.refused += 1
            assert not looks or state(self.group) == before, "a refused call changed something"
        elif line[:1] in (b"o", b"g"):
            self.decisions = {}
            assert all(board is None for board in self.group.boards)
        else:
            self.look(int(line.split(b",")[1]))
        return good

    def look(self, named):
        group = self.group
        board = group.boards[named]
        kinds = [kind for kind, _ in board.posted if kind > 1 or group.method == "p"]
        assert len(set(kinds)) == len(kinds), "two words of one kind"
        assert len(set(board.posted)) == len(board.posted), "a word posted twice"
        assert all(1 <= kind <= KINDS[group.method, group.depth] for kind, _ in board.posted)
        assert all(0 <= value <= group.characters for _, value in board.posted)
        decision = board.decision
        assert self.decisions.setdefault(named, decision) == decision or self.decisions[named] is None, "changed"
        self.decisions[named] = decision
        if decision is None:
            return
        value, grade = decision
        assert decision == (0, 0) or 1 <= grade <= group.depth
        honest = [i for i in range(len(group.boards)) if group.method == "p" or not group.listed(i)]
        started = {group.starts[i] for i in honest if group.boards[i] is not None}
        assert value == 0 or value in started, "a character that no honest board started with"
        if len(started) == 1:
            assert decision == (min(started), group.depth), "unanimity"
        for other in group.boards:
            if other is not None and other.decision is not None:
                assert one_step_apart(decision, other.decision), "too far apart"


class WatchedPlay(Play):
    """A play that has to end with a decision of every unlisted board once all is delivered."""

    ended = 0

    def run(self, limit=None, until=None):
        super().run(limit, until)
        if not self.heap and not self.held and self.player.group is self.group:
            assert not self.undecided(), "all delivered, but not all have decided"
            WatchedPlay.ended += 1


def check_random_sessions(sessions, seed):
    generate.Play = WatchedPlay
    lines = refused = 0
    for index in range(sessions):
        watcher = Watcher(seeded(seed, index))
        try:
            write_session(watcher)
        except AssertionError:
            print(f"session {index} of seed {seed}, line {len(watcher.lines)}: {watcher.lines[-1]}")
            raise
        lines += len(watcher.lines)
        refused += watcher.refused
        joined = b"".join(line + b"\n" for line in watcher.lines)
        assert play(joined) == b"".join(answer + b"\n" for answer in watcher.answers)
        assert play(joined[:-1] if watcher.lines[-1] else joined) == play(joined), "last line feed"
    generate.Play = Play
    print(f"{sessions} random sessions, {lines} lines, {refused} refused, {WatchedPlay.ended} plays to their end")


def check_stored():
    tally = Tally()
    session = write_stored(tally)
    missing = [goal for goal in goals() if not tally.counts[goal]]
    assert not missing, missing
    print(f"the stored session of {len(play(session).splitlines())} lines reaches all {len(goals())} goals")
    return session


# Wrong models.


def wrong_model(source, old, new):
    """The model's `play`, with one change."""
    assert source.count(old) == 1, (source.count(old), old)
    changed = source.replace(old, new).replace("import combinations_with", "import combinations, combinations_with")
    module = types.ModuleType("wrong_model")
    exec(compile(changed, "wrong_model", "exec"), module.__dict__)
    return module.play


def tells(wrong, session, output):
    try:
        return wrong(session) != output
    except Exception:
        return True


def check_wrong_models(stored, seed):
    with open(session_model.__file__, encoding="utf-8") as file:
        source = file.read()
    expected = play(stored)
    batches = []
    told = 0
    for name, old, new in WRONG:
        wrong = wrong_model(source, old, new)
        if tells(wrong, stored, expected):
            told += 1
            assert name not in SILENT, name
            continue
        tries = 4 if name in SILENT else 40
        while len(batches) < tries:
            batches.append(write_batch(seed, len(batches) * 50, 50))
        number = next((i for i in range(tries) if tells(wrong, *batches[i])), None)
        assert (number is None) == (name in SILENT), name
        if number is not None:
            print(f"  not told by the stored session, but within {number * 50 + 50} sessions: {name}")
    print(f"{len(WRONG)} wrong models, {told} told by the stored session, {len(SILENT)} that no session can tell")


def main():
    parser = argparse.ArgumentParser(description="Checks the model and the generator.")
    parser.add_argument("--sessions", type=int, default=1000)
    parser.add_argument("--seed", default="check")
    asked = parser.parse_args()
    check_kept_sessions()
    check_random_sessions(asked.sessions, asked.seed)
    stored = check_stored()
    check_wrong_models(stored, asked.seed)
    return 0


if __name__ == "__main__":
    sys.exit(main())
