"""What sessions reach, and what they have to reach."""

from collections import Counter

from random_lines import LINE_FAULTS, NO_FORGE_FAULTS, OPENING_FAULTS
from session_model import COVER, FRAME_FIELDS, KINDS, CountRule, ListedRule, Refused, Unreadable, read_frame, read_line


def opening_faults(method, depth, crew, f, sets, characters, bad, starts):
    """Every number that stands against an opening, as far as it can be asked."""
    faults = set()
    if not 1 <= crew <= 16:
        faults.add(1)
    if not 1 <= characters <= 8:
        faults.add(2)
    if depth not in (1, 2):
        faults.add(3)
    if any(not 1 <= start <= characters for start in starts):
        faults.add(9)
    if 1 not in faults:
        rule = CountRule(crew, f) if sets is None else ListedRule(crew, sets)
        if sets is not None and (len(sets) > 8 or any(listed >= 2**crew for listed in sets)):
            faults.add(4)
        elif not rule.has_cover(COVER[method]):
            faults.add(5)
        if not rule.has(bad):
            faults.add(28)
    return faults


class Tally:
    """Counts what the lines of sessions reach."""

    def __init__(self):
        self.counts = Counter()
        self.bench = None
        self.decision = None
        self.group = None

    def add(self, event):
        self.counts[event] += 1

    def note(self, why):
        """What a board tells."""
        group = self.bench.group
        self.add(f"{group.method}{group.depth} {why}")

    def before(self, line):
        self.group = self.bench.group
        self.decision = self.named_decision(line)

    def named_decision(self, line):
        group = self.bench.group
        fields = line.split(b",")
        if group is None or line[:1] not in b"cf" or len(fields) < 4 or not fields[1].isdigit():
            return None
        to = int(fields[1])
        board = group.boards[to] if to < len(group.boards) else None
        return board.decision if board else None

    def after(self, line, answer, label):
        letter, number = answer.split(b",")[:2]
        number = int(number)
        if number == 29:
            self.add("refused 29, " + ("no group open" if self.group is None else "a group open"))
        else:
            self.add(f"{letter.decode()} {'refused %d' % number if number else 'good'}")
        if label:
            self.add(f"{label}: {29 if number == 29 else 'readable'}")
        try:
            letter, given = read_line(line)
        except Unreadable:
            return
        if letter in "og":
            self.opening(letter, given, number)
        elif self.group is None:
            self.add(f"{letter} refused 21")
        else:
            getattr(self, "call_" + letter)(number, *given)

    def pairs(self, letter, number, faults):
        """The number told, and those that stand but are asked later."""
        for other in faults:
            if other > number:
                self.add(f"{letter} refused {number}, {other} stands too")

    def opening(self, letter, given, number):
        method, depth, crew, f, sets, characters, bad, starts = given
        if number == 0:
            self.add(f"{letter} opens {method}, crew of {crew}")
            self.add(f"{letter} opens {method}, depth {depth}")
            if sets is not None:
                self.add(f"g opens {method}, {len(sets)} sets")
            self.add("good opening, " + ("no group open" if self.group is None else "a group open"))
            return
        self.pairs(letter, number, opening_faults(*given))
        self.add("refused opening, " + ("no group open" if self.group is None else "a group open"))
        detail = None
        if number == 1:
            detail = "no board" if crew == 0 else "over 16"
        elif number == 2:
            detail = "none" if characters == 0 else "over 8"
        elif number == 3:
            detail = "depth 0" if depth == 0 else "over 2"
        elif number == 4:
            detail = "over 8 sets" if len(sets) > 8 else "outside the crew"
        elif number == 5 and sets is None:
            detail = "least f" if COVER[method] * (f - 1) < crew else "more"
            if COVER[method] * f % 65536 < crew:
                detail = "wrapping"
            if method == "e" and 2 * f < crew:
                self.add("o refused 5: cover 2 holds")
        elif number == 5:
            detail = "one set" if 2**crew - 1 in sets else "several sets"
            if len(sets) < COVER[method]:
                self.add("g refused 5: fewer sets than the cover")
            if ListedRule(crew, sets[:4]).has_cover(COVER[method]):
                self.add("g refused 5: by the fifth set or a later one")
            if method == "e" and ListedRule(crew, sets).has_cover(2):
                self.add("g refused 5: cover 2 holds")
        elif number == 9:
            wrong = [i for i in range(crew) if not 1 <= starts[i] <= characters]
            detail = "0" if starts[wrong[0]] == 0 else "too high"
            if all(bad >> i & 1 for i in wrong):
                self.add(f"{letter} refused 9: listed boards only")
        elif number == 28:
            detail = "outside the crew" if bad >= 2**crew else "in the crew"
            if bad >= 2**crew and sets is None and bad.bit_count() <= f:
                self.add("o refused 28: few boards, outside the crew")
        self.add(f"{letter} refused {number}: {detail}")

    def call_s(self, number, board):
        pass

    def call_c(self, number, to, sender, kind, value):
        self.call(number, "c", to, sender)
        group = self.group
        if number == 27:
            posted = group.boards[sender].posted
            if kind not in [k for k, _ in posted]:
                self.add("c refused 27: no such kind")
            elif value not in [v for _, v in posted]:
                self.add("c refused 27: no such value")
            if (kind % 256, value % 256) in posted:
                self.add("c refused 27: wrapping")
        if number == 0:
            self.counted(to)
            if to == sender:
                self.add("c to itself")
            if group.listed(sender):
                self.add("c from a plain listed board")
            if group.listed(to):
                self.add("c to a plain listed board")

    def call_f(self, number, to, port, rest):
        self.call(number, "f", to, port)
        if number == 0:
            self.counted(to)
            self.second_value(self.group.boards[to], port, *read_frame(rest + b"\n")[3:])
        elif 11 <= number <= 15:
            self.frame_refused(number, rest)
        elif 16 <= number <= 19:
            self.board_refused(number, port, rest)

    def second_value(self, board, port, kind, value):
        """A second value of one sender and kind that would matter if it were counted."""
        if kind == 1 or board.words[kind][value] >> port & 1:
            return
        ends = kind == 5 or kind == 3 and board.depth == 1
        waits = board.decision is None if ends else kind + 1 not in board.kinds_posted
        if waits and board.rule.ample(board.words[kind][value] | 2**port):
            self.add("e counted already, other value that would be ample")

    def call(self, number, letter, to, sender):
        """Which board is at fault, and what stands too."""
        group = self.group
        crew = len(group.boards)
        if number in (22, 23, 25):
            wrong = {
                22: lambda board: board >= crew,
                23: lambda board: group.listed(board),
                25: lambda board: group.boards[board] is None,
            }[number]
            if wrong(to):
                self.add(f"{letter} refused {number}: to")
            elif wrong(sender):
                self.add(f"{letter} refused {number}: from")
        inside = [board for board in (to, sender) if board < crew]
        faults = set()
        named = inside if letter == "c" else [board for board in inside if board == to]
        if group.method == "e" and any(group.listed(board) for board in named):
            faults.add(23)
        if any(group.boards[board] is None for board in named):
            faults.add(25)
        if letter == "f" and (group.method == "p" or not group.listed(sender)):
            faults.add(26)
            if number == 26:
                self.add("f refused 26: " + ("unlisted" if group.method == "e" else "plain"))
                if group.method == "p" and group.listed(sender):
                    self.add("f refused 26: plain, listed")
        if number >= 22:
            self.pairs(letter, number, faults)

    def frame_refused(self, number, rest):
        try:
            read_frame(rest + b"\n")
        except Refused as refused:
            place = refused.place
            field = rest[:place].count(b",") + 1
            self.add(f"frame refused {number}, field {field}")
            digits = len(rest[place:]) - len(rest[place:].lstrip(b"0123456789"))
            if number in (12, 13) and digits > 20:
                self.add(f"frame refused {number}, over 20 digits")
            if number == 13:
                self.out_of_range(field, int(rest[place : place + digits]))
            if number == 12 and rest[place:].lstrip(b"0")[:1] in (b"", b","):
                self.add("frame refused 12, zeros only")
            if number == 14 and field < 5:
                self.add("frame refused 14, " + ("ends early" if place == len(rest) else "other byte"))
            if number == 14 and field == 5 and rest[place:] == b"\r":
                self.add("frame refused 14, carriage return at the end")
            if rest == b"":
                self.add("frame refused 11, no bytes")
            if rest[place : place + 1] >= b"\x80":
                self.add("frame refused at a byte from 128 up")
            if rest[place : place + 1] == b"\0":
                self.add("frame refused at a NUL")

    def out_of_range(self, field, number):
        least, largest, _ = FRAME_FIELDS[field - 1]
        if number == least - 1:
            self.add(f"frame refused 13, just below, field {field}")
        if number == largest + 1:
            self.add(f"frame refused 13, just above, field {field}")
        for bits in (8, 16, 32, 64):
            if largest < 2**bits <= number < 2 ** (bits + 1) and least <= number % 2**bits <= largest:
                self.add(f"frame refused 13, good again after {bits} bits")

    def board_refused(self, number, port, rest):
        group_number, change, sender, kind, value = read_frame(rest + b"\n")
        group = self.group
        if number == 16:
            self.add("frame refused 16, " + ("group" if group_number != 1 else "change"))
        if number == 18:
            self.add(f"frame refused 18, kind {kind}")
        faults = {17} if sender != port else set()
        if kind > KINDS[group.method, group.depth]:
            faults.add(18)
        if value > group.characters:
            faults.add(19)
        self.pairs("f", number, faults)

    def counted(self, to):
        """A word was taken: what is told of the receiver."""
        group = self.group
        board = group.boards[to]
        if group.method == "e":
            self.echo_board(board)
        if board.decision is None:
            return
        if self.decision is not None:
            self.add("standing decision")
            return
        value, grade = board.decision
        rule = "count" if isinstance(group.rule, CountRule) else "listed"
        shape = "(0,0)" if value == 0 else f"(v,{grade})"
        self.add(f"{group.method}{group.depth} {rule} rule decides {shape}")
        self.add(f"decides character {value}")
        crew = len(group.boards)
        self.add(f"p decides, crew of {crew}" if group.method == "p" else f"e decides, crew {crew_class(crew)}")
        others = {other.decision for other in group.boards if other is not None and other.decision is not None}
        if len(others) > 1:
            self.add(f"{group.method}{group.depth} decisions differ")

    def echo_board(self, board):
        """What no single test tells."""
        opened = [board.rule.strong(board.senders[1] & ~board.openings[value]) for value in board.values]
        if not opened[0] and all(opened[1:]) and (1, 0) not in board.posted:
            self.add("e test 2 kept back by 0 alone")
        decided = self.decision is None and board.decision is not None
        if board.depth == 1:
            if self.decision is not None and self.decision[0] and board.mixed() and board.all_ample(3):
                self.add("e1 outcome would be 0 after a character")
            return
        fifth = board.words[5]
        if board.decision is None and board.all_ample(5):
            if board.mixed():
                self.add("e2 test 7 waits, mixed with ample kind 5 senders")
            elif board.lowest_backed() is not None:
                self.add("e2 test 7 waits, not mixed, a character backed")
        if decided and board.decision[1] == 1:
            if any(fifth[value] for value in range(1, board.decision[0])):
                self.add("e2 test 7 passes over a lower character")
        if decided and board.decision[1] == 2 and board.mixed():
            self.add("e2 test 7 decides (v,2), mixed")

    def report(self, wanted):
        lines = [f"{self.counts[event]:>9}  {event}" for event in sorted(self.counts)]
        missing = [event for event in wanted if not self.counts[event]]
        lines += [f"not reached: {event}" for event in missing]
        lines.append(f"{len(wanted) - len(missing)} of {len(wanted)} goals reached")
        return "\n".join(lines)


def crew_class(crew):
    return "1 to 4" if crew <= 4 else "5 to 8" if crew <= 8 else "9 to 16"


LISTED_COVER = (
    "one set", "several sets", "fewer sets than the cover", "by the fifth set or a later one", "cover 2 holds",
)  # fmt: skip


def goals():
    """What sessions have to reach."""
    wanted = []
    for letter in "og":
        details = {
            1: ("no board", "over 16"),
            2: ("none", "over 8"),
            3: ("depth 0", "over 2"),
            4: ("over 8 sets", "outside the crew") if letter == "g" else (),
            5: ("least f", "more", "wrapping", "cover 2 holds") if letter == "o" else LISTED_COVER,
            9: ("0", "too high", "listed boards only"),
            28: ("in the crew", "outside the crew"),
        }
        wanted += [f"{letter} refused {number}: {detail}" for number in details for detail in details[number]]
        numbers = (2, 3, 4, 5, 9, 28) if letter == "g" else (2, 3, 5, 9, 28)
        wanted += [f"{letter} refused 1, {other} stands too" for other in (2, 3, 9)]
        for low in numbers:
            for high in numbers:
                if low < high and (low, high) != (4, 5):
                    wanted.append(f"{letter} refused {low}, {high} stands too")
        for method in "pe":
            wanted += [f"{letter} opens {method}, crew of {crew}" for crew in range(1, 17)]
            wanted += [f"{letter} opens {method}, depth {depth}" for depth in (1, 2)]
    wanted += [f"g opens {method}, {count} sets" for method in "pe" for count in range(9)]
    for state in ("no group open", "a group open"):
        wanted += [f"good opening, {state}", f"refused opening, {state}", f"refused 29, {state}"]
    wanted.append("o refused 28: few boards, outside the crew")
    wanted += [f"s refused {number}" for number in (21, 22, 23, 24)]
    wanted += [f"c refused {number}" for number in (21, 22, 23, 25, 27)]
    wanted += [f"f refused {number}" for number in (21, 22, 23, 25, 26, 11, 12, 13, 14, 16, 17, 18, 19)]
    wanted += [f"c refused {number}: {which}" for number in (22, 23, 25) for which in ("to", "from")]
    wanted += [f"c refused 27: {which}" for which in ("no such kind", "no such value", "wrapping")]
    wanted += [f"f refused 22: {which}" for which in ("to", "from")]
    wanted += ["f refused 23: to", "f refused 25: to", "f refused 26: plain", "f refused 26: unlisted"]
    wanted.append("f refused 26: plain, listed")
    wanted += [f"c refused {low}, {high} stands too" for low, high in ((22, 23), (22, 25), (23, 25))]
    wanted += [f"f refused {low}, {high} stands too" for low, high in ((22, 23), (22, 26), (23, 26), (25, 26))]
    wanted += [f"frame refused {number}, field {field}" for number in (11, 12, 13, 14) for field in range(1, 6)]
    wanted += [f"frame refused 13, just below, field {field}" for field in (1, 2, 4)]
    wanted += [f"frame refused 13, just above, field {field}" for field in range(1, 6)]
    wanted += [f"frame refused 13, good again after {bits} bits" for bits in (8, 16, 32, 64)]
    wanted += [f"frame refused 18, kind {kind}" for kind in (4, 5)]
    wanted += [
        "frame refused 12, over 20 digits", "frame refused 13, over 20 digits", "frame refused 12, zeros only",
        "frame refused 14, ends early", "frame refused 14, other byte", "frame refused 11, no bytes",
        "frame refused 14, carriage return at the end",
        "frame refused at a byte from 128 up", "frame refused at a NUL",
        "frame refused 16, group", "frame refused 16, change",
    ]  # fmt: skip
    board_pairs = ((16, 17), (16, 18), (16, 19), (17, 18), (17, 19), (18, 19))
    wanted += [f"f refused {low}, {high} stands too" for low, high in board_pairs]
    wanted += ["empty line: 29", "any bytes: 29"]
    for letter in "ogscf":
        faults = LINE_FAULTS + (NO_FORGE_FAULTS if letter != "f" else ()) + (OPENING_FAULTS if letter in "og" else ())
        wanted += [f"{fault}, line {letter}: 29" for fault in faults]
    for letter in "ogf":
        wanted += [f"line {letter} of {length} bytes: readable" for length in (119, 120)]
        wanted.append(f"line {letter} of 121 bytes: 29")
    wanted += ["c to itself", "c from a plain listed board", "c to a plain listed board", "standing decision"]
    wanted += [f"decides character {value}" for value in range(9)]
    shapes = {1: ("(0,0)", "(v,1)"), 2: ("(0,0)", "(v,1)", "(v,2)")}
    for method in "pe":
        for depth in (1, 2):
            wanted.append(f"{method}{depth} counted already")
            wanted.append(f"{method}{depth} decisions differ")
            for rule in ("count", "listed"):
                wanted += [f"{method}{depth} {rule} rule decides {shape}" for shape in shapes[depth]]
    wanted += [f"p decides, crew of {crew}" for crew in range(1, 17)]
    wanted += [f"e decides, crew {crew_class(crew)}" for crew in (1, 5, 9)]
    wanted += [f"p{depth} {what}" for depth in (1, 2) for what in ("branch a character", "branch 0")]
    wanted += ["p2 decides in the step that fixes the branch"]
    wanted += ["p2 branch 0 decides (v,1)", "p2 branch 0 decides (0,0)"]
    wanted += ["p2 branch v decides (v,2)", "p2 branch v decides (v,1)"]
    tests = [
        "test 1 posts a character", "test 1 posts 0", "test 2 posts 0", "test 3 approves a character",
        "test 3 approves 0", "test 3 posts a character", "test 3 posts 0", "test 4 posts a character",
        "test 4 posts 0, ample", "test 4 posts 0, two approved", "test 5 outcome 0, mixed",
        "test 5 outcome a character", "test 5 outcome 0, not mixed", "counted already, other value",
        "posts after its decision",
    ]  # fmt: skip
    wanted += [f"e{depth} {test}" for depth in (1, 2) for test in tests]
    wanted += [
        "e2 test 6 posts a character", "e2 test 6 posts 0, ample", "e2 test 6 posts 0, mixed",
        "e2 test 7 decides (v,2)", "e2 test 7 decides (v,2), mixed", "e2 test 7 decides (w,1)",
        "e2 test 7 decides (0,0), mixed", "e2 test 7 decides (0,0), not mixed",
        "e2 test 7 passes over a lower character", "e2 test 7 waits, mixed with ample kind 5 senders",
        "e2 test 7 waits, not mixed, a character backed", "e2 test 6 posts a character, mixed",
        "e1 outcome would be 0 after a character", "e test 2 kept back by 0 alone",
        "e counted already, other value that would be ample",
    ]  # fmt: skip
    return wanted
