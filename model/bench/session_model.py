#!/usr/bin/env python3
"""A model of the program `bench`: it plays a whole harbour of boards from session lines.

Standard input has one call on each line; standard output gets one answer for each.
A set of boards is a number to which board i adds 2**i.
A word is (kind, value) beside its sender; value 0 stands for no character.
A decision is (v, g), a character with a grade, or (0, 0).
"""

import re
import sys
from itertools import combinations_with_replacement

LONGEST_LINE = 120
LARGEST_NUMBER = 65535
MOST_BOARDS = 16
MOST_CHARACTERS = 8
MOST_SETS = 8
GROUP_NUMBER = 1
CHANGE_NUMBER = 1
COVER = {"p": 2, "e": 3}
KINDS = {("p", 1): 1, ("p", 2): 2, ("e", 1): 3, ("e", 2): 5}

# The fields of a frame: least and largest number, and the byte that follows.
FRAME_FIELDS = ((1, 65535, b","), (1, 65535, b","), (0, 15, b","), (1, 5, b","), (0, 8, b"\n"))

NUMBER = re.compile(rb"0|[1-9][0-9]{0,4}")
DIGITS = re.compile(rb"[0-9]*")


class Unreadable(Exception):
    """The line is not one of the five forms."""


class Refused(Exception):
    """A refused call: the number, and for a frame the place of the byte at fault."""

    def __init__(self, number, place=None):
        super().__init__(number, place)
        self.number = number
        self.place = place


def ignore(event):
    """Boards tell which rule made them post or decide; by default nobody listens."""


# Failure rules.


class Rule:
    """A family of sets of boards that may fail together."""

    def __init__(self, crew):
        self.everyone = 2**crew - 1

    def has(self, boards):
        """The set is in the family."""
        raise NotImplementedError

    def strong(self, boards):
        return not self.has(boards)

    def ample(self, boards):
        return self.has(self.everyone & ~boards)


class CountRule(Rule):
    """Every set of at most f boards of the crew."""

    def __init__(self, crew, f):
        super().__init__(crew)
        self.crew = crew
        self.f = f

    def has(self, boards):
        return boards <= self.everyone and boards.bit_count() <= self.f

    def has_cover(self, cover):
        return cover * self.f < self.crew


class ListedRule(Rule):
    """The empty set and each part of a listed set."""

    def __init__(self, crew, sets):
        super().__init__(crew)
        self.sets = sets

    def has(self, boards):
        if boards == 0:
            return True
        for listed in self.sets:
            if boards | listed == listed:
                return True
        return False

    def has_cover(self, cover):
        """No `cover` listed sets, repeats allowed, hold the whole crew between them."""
        for chosen in combinations_with_replacement(self.sets, cover):
            union = 0
            for listed in chosen:
                union |= listed
            if union == self.everyone:
                return False
        return True


# Boards. A board is made when it starts.


class Board:
    def __init__(self, rule, depth, characters, character, note):
        self.rule = rule
        self.depth = depth
        self.characters = characters
        self.note = note
        self.decision = None
        self.posted = []  # words, in the order of posting
        self.post(1, character, "start")

    def post(self, kind, value, why):
        self.posted.append((kind, value))
        self.note(why)
        if self.decision is not None:
            self.note("posts after its decision")

    def decide(self, value, grade, why):
        """A decision is never changed."""
        if self.decision is None:
            self.decision = (value, grade)
            self.note(why)


class PlainBoard(Board):
    def __init__(self, *settings):
        super().__init__(*settings)
        self.words = {1: {}, 2: {}}  # kind -> sender -> value
        self.branch = None

    def count(self, sender, kind, value):
        if sender in self.words[kind]:
            self.note("counted already")
            return
        self.words[kind][sender] = value
        before = self.branch
        if self.branch is None and self.ample(1):
            self.fix_branch()
        if self.branch is not None and self.decision is None:
            if self.depth == 1:
                self.decide_by_branch()
            elif self.ample(2):
                if before is None:
                    self.note("decides in the step that fixes the branch")
                self.compare()

    def ample(self, kind):
        return self.rule.ample(sum(2**sender for sender in self.words[kind]))

    def fix_branch(self):
        values = set(self.words[1].values())
        self.branch = values.pop() if len(values) == 1 else 0
        self.note("branch a character" if self.branch else "branch 0")
        if self.depth == 2:
            self.post(2, self.branch, "posts its branch")

    def decide_by_branch(self):
        if self.branch == 0:
            self.decide(0, 0, "decides (0,0)")
        else:
            self.decide(self.branch, 1, "decides (v,1)")

    def compare(self):
        values = set(self.words[2].values())
        if self.branch == 0:
            characters = values - {0}
            if characters:
                self.decide(min(characters), 1, "branch 0 decides (v,1)")
            else:
                self.decide(0, 0, "branch 0 decides (0,0)")
        elif values == {self.branch}:
            self.decide(self.branch, 2, "branch v decides (v,2)")
        else:
            self.decide(self.branch, 1, "branch v decides (v,1)")


class EchoBoard(Board):
    def __init__(self, *settings):
        super().__init__(*settings)
        self.values = range(self.characters + 1)
        self.echoes = [0 for _ in self.values]  # value -> the boards that echoed it
        self.openings = [0 for _ in self.values]  # value -> the boards whose opening it is
        self.words = {kind: [0 for _ in self.values] for kind in (2, 3, 4, 5)}  # value -> its senders
        self.senders = {1: 0, 2: 0, 3: 0, 4: 0, 5: 0}  # kind -> senders of any value
        self.kinds_posted = {1}
        self.approved = []  # values, in the order of approval

    def count(self, sender, kind, value):
        board = 2**sender
        if kind == 1:
            if self.echoes[value] & board:
                self.note("counted already")
                return
            if not self.senders[1] & board:
                self.openings[value] |= board
            self.echoes[value] |= board
        else:
            if self.senders[kind] & board:
                self.note("counted already" if self.words[kind][value] & board else "counted already, other value")
                return
            self.words[kind][value] |= board
        self.senders[kind] |= board
        self.test_1()
        self.test_2()
        self.test_3()
        self.test_4()
        self.test_5()
        if self.depth == 2:
            self.test_6()
            self.test_7()

    # What the tests ask and do.

    def mixed(self):
        return 0 in self.approved or len(self.approved) >= 2

    def all_ample(self, kind):
        """The senders of this kind, of any values, are ample."""
        return self.rule.ample(self.senders[kind])

    def ample_value(self, kind):
        """The value whose senders of this kind are ample, or None. There is never more than one."""
        for value in self.values:
            if self.rule.ample(self.words[kind][value]):
                return value
        return None

    def post_echo(self, value, why):
        if (1, value) not in self.posted:
            self.post(1, value, why)

    def post_once(self, kind, value, why):
        if kind not in self.kinds_posted:
            self.kinds_posted.add(kind)
            self.post(kind, value, why)

    # The tests, in their order.

    def test_1(self):
        for value in self.values:
            if self.rule.strong(self.echoes[value]):
                self.post_echo(value, "test 1 posts a character" if value else "test 1 posts 0")

    def test_2(self):
        for value in self.values:
            others = self.senders[1] & ~self.openings[value]
            if not self.rule.strong(others):
                return
        self.post_echo(0, "test 2 posts 0")

    def test_3(self):
        for value in self.values:
            if value not in self.approved and self.rule.ample(self.echoes[value]):
                self.approved.append(value)
                self.note("test 3 approves a character" if value else "test 3 approves 0")
        if self.approved:
            first = self.approved[0]
            self.post_once(2, first, "test 3 posts a character" if first else "test 3 posts 0")

    def test_4(self):
        value = self.ample_value(2)
        if value is not None:
            self.post_once(3, value, "test 4 posts a character" if value else "test 4 posts 0, ample")
        elif len(self.approved) >= 2:
            self.post_once(3, 0, "test 4 posts 0, two approved")

    def test_5(self):
        if self.mixed() and self.all_ample(3):
            self.outcome(0, "test 5 outcome 0, mixed")
        else:
            value = self.ample_value(3)
            if value is not None:
                self.outcome(value, "test 5 outcome a character" if value else "test 5 outcome 0, not mixed")

    def outcome(self, value, why):
        if self.depth == 2:
            self.post_once(4, value, why)
        elif value == 0:
            self.decide(0, 0, why)
        else:
            self.decide(value, 1, why)

    def test_6(self):
        value = self.ample_value(4)
        if value is not None and value != 0:
            self.post_once(5, value, "test 6 posts a character, mixed" if self.mixed() else "test 6 posts a character")
        elif value == 0:
            self.post_once(5, 0, "test 6 posts 0, ample")
        elif self.mixed() and self.all_ample(4):
            self.post_once(5, 0, "test 6 posts 0, mixed")

    def test_7(self):
        value = self.ample_value(5)
        if value is not None and value != 0:
            self.decide(value, 2, "test 7 decides (v,2)")
            return
        if self.mixed() and self.all_ample(5):
            backed = self.lowest_backed()
            if backed is not None:
                self.decide(backed, 1, "test 7 decides (w,1)")
                return
        if value == 0:
            self.decide(0, 0, "test 7 decides (0,0), mixed" if self.mixed() else "test 7 decides (0,0), not mixed")

    def lowest_backed(self):
        """The lowest character with a kind 5 sender and strong kind 4 senders, or None."""
        for value in self.values[1:]:
            if self.words[5][value] != 0 and self.rule.strong(self.words[4][value]):
                return value
        return None


# Frames.


def write_frame(sender, kind, value):
    return b"%d,%d,%d,%d,%d\n" % (GROUP_NUMBER, CHANGE_NUMBER, sender, kind, value)


def read_frame(frame):
    """The five numbers of a frame."""
    numbers = []
    place = 0
    for least, largest, mark in FRAME_FIELDS:
        digits = DIGITS.match(frame, place).group()
        after = place + len(digits)
        if digits == b"":
            raise Refused(11, place)
        if digits[:1] == b"0" and len(digits) > 1:
            raise Refused(12, place)
        if len(digits) > 5 or not least <= int(digits) <= largest:
            raise Refused(13, place)
        if frame[after : after + 1] != mark:
            raise Refused(14, after)
        numbers.append(int(digits))
        place = after + 1
    if place != len(frame):
        raise Refused(15, place)
    return numbers


# The group of boards.


class Group:
    """The boards of an opening; a board that has not started is None."""

    def __init__(self, method, depth, rule, characters, bad, starts, note):
        self.method = method
        self.depth = depth
        self.rule = rule
        self.characters = characters
        self.bad = bad
        self.starts = starts
        self.note = note
        self.boards = [None for _ in starts]

    def listed(self, board):
        return self.bad >> board & 1 == 1

    # What a call asks, by rising number.

    def ask_crew(self, *named):
        if any(board >= len(self.boards) for board in named):
            raise Refused(22)

    def ask_unlisted(self, *named):
        if self.method == "e" and any(self.listed(board) for board in named):
            raise Refused(23)

    def ask_started(self, *named):
        if any(self.boards[board] is None for board in named):
            raise Refused(25)

    # The calls. Each answers how many words were posted.

    def start(self, board):
        self.ask_crew(board)
        self.ask_unlisted(board)
        if self.boards[board] is not None:
            raise Refused(24)
        make = {"p": PlainBoard, "e": EchoBoard}[self.method]
        self.boards[board] = make(self.rule, self.depth, self.characters, self.starts[board], self.note)
        return 1

    def carry(self, to, sender, kind, value):
        self.ask_crew(to, sender)
        self.ask_unlisted(to, sender)
        self.ask_started(to, sender)
        if (kind, value) not in self.boards[sender].posted:
            raise Refused(27)
        return self.take(to, sender, write_frame(sender, kind, value))

    def forge(self, to, port, rest):
        self.ask_crew(to, port)
        self.ask_unlisted(to)
        self.ask_started(to)
        if self.method == "p" or not self.listed(port):
            raise Refused(26)
        return self.take(to, port, rest + b"\n")

    def take(self, to, port, frame):
        """A frame comes in on a port of a started board."""
        group, change, sender, kind, value = read_frame(frame)
        if group != GROUP_NUMBER or change != CHANGE_NUMBER:
            raise Refused(16)
        if sender != port:
            raise Refused(17)
        if kind > KINDS[self.method, self.depth]:
            raise Refused(18)
        if value > self.characters or (self.method == "p" and kind == 1 and value == 0):
            raise Refused(19)
        board = self.boards[to]
        before = len(board.posted)
        board.count(sender, kind, value)
        return len(board.posted) - before


def open_group(method, depth, crew, f, sets, characters, bad, starts, note):
    """A new group, with f of a count rule or the sets of a listed rule; the other is None."""
    if not 1 <= crew <= MOST_BOARDS:
        raise Refused(1)
    if not 1 <= characters <= MOST_CHARACTERS:
        raise Refused(2)
    if depth not in (1, 2):
        raise Refused(3)
    if sets is not None and (len(sets) > MOST_SETS or any(listed >= 2**crew for listed in sets)):
        raise Refused(4)
    rule = CountRule(crew, f) if sets is None else ListedRule(crew, sets)
    if not rule.has_cover(COVER[method]):
        raise Refused(5)
    if not all(1 <= start <= characters for start in starts):
        raise Refused(9)
    if not rule.has(bad):
        raise Refused(28)
    return Group(method, depth, rule, characters, bad, starts, note)


# Session lines.


def number(field):
    if not NUMBER.fullmatch(field) or int(field) > LARGEST_NUMBER:
        raise Unreadable
    return int(field)


def read_line(line):
    """The letter of a line and what its call is given."""
    if len(line) > LONGEST_LINE:
        raise Unreadable
    letter, *fields = line.split(b",")
    if letter == b"f":
        if len(fields) < 3:
            raise Unreadable
        rest = b",".join(fields[2:])
        return "f", (number(fields[0]), number(fields[1]), rest)
    if letter == b"s" and len(fields) == 1:
        return "s", (number(fields[0]),)
    if letter == b"c" and len(fields) == 4:
        return "c", tuple(number(field) for field in fields)
    if letter in (b"o", b"g") and len(fields) >= 6 and fields[0] in (b"p", b"e"):
        method = fields[0].decode()
        depth, crew, amount, characters, bad, *rest = [number(field) for field in fields[1:]]
        if letter == b"o" and len(rest) == crew:
            return "o", (method, depth, crew, amount, None, characters, bad, rest)
        if letter == b"g" and len(rest) == amount + crew:
            return "g", (method, depth, crew, None, rest[:amount], characters, bad, rest[amount:])
    raise Unreadable


class Bench:
    def __init__(self, note=ignore):
        self.note = note
        self.group = None

    def answer(self, line):
        """The answer to one line; both are bytes without their line feed."""
        try:
            letter, given = read_line(line)
        except Unreadable:
            return b"?,29,0,-,-"
        try:
            posted, decision = self.call(letter, given)
        except Refused as refused:
            return b"%s,%d,0,-,-" % (letter.encode(), refused.number)
        value, grade = (b"-", b"-") if decision is None else (b"%d" % decision[0], b"%d" % decision[1])
        return b"%s,0,%d,%s,%s" % (letter.encode(), posted, value, grade)

    def call(self, letter, given):
        """How many words were posted, and the decision of the first board named."""
        if letter in ("o", "g"):
            self.group = open_group(*given, self.note)
            return 0, None
        if self.group is None:
            raise Refused(21)
        call = {"s": self.group.start, "c": self.group.carry, "f": self.group.forge}[letter]
        posted = call(*given)
        return posted, self.group.boards[given[0]].decision


def split_lines(session):
    """The lines of a session; a last line without a line feed is a line too."""
    lines = session.split(b"\n")
    if lines[-1] == b"":
        lines.pop()
    return lines


def play(session):
    """The output of `bench` for a session, as bytes."""
    bench = Bench()
    return b"".join(bench.answer(line) + b"\n" for line in split_lines(session))


if __name__ == "__main__":
    sys.stdout.buffer.write(play(sys.stdin.buffer.read()))
