"""Runs of a crew: events, which of them are legal, the parts A to D of the promise, and runs as text."""

from dataclasses import dataclass, field, replace
from typing import NamedTuple

from methods import EXACT, Settings, new_board

SECTIONS = ("so far", "one way on", "another way on")


class Start(NamedTuple):
    board: int
    character: int

    def __str__(self):
        return f"start {self.board} {self.character}"


class Count(NamedTuple):
    board: int
    sender: int
    kind: int
    value: int

    def __str__(self):
        return f"count {self.board} from {self.sender} kind {self.kind} value {self.value}"


class Run:
    """A crew after some events, oldest first."""

    def __init__(self, settings):
        self.settings = settings
        self.honest = settings.honest()
        self.steady = settings.steady()
        self.boards = {}  # the honest boards that have started
        self.characters = {}  # their starting characters
        self.counted = set()  # the Count events so far

    def refusal(self, event):
        """Why this event is not legal now, or None."""
        if event.board not in self.honest:
            return f"board {event.board} does not follow the method"
        if isinstance(event, Start):
            return self.refusal_of_start(event)
        return self.refusal_of_count(event)

    def refusal_of_start(self, event):
        if event.board in self.boards:
            return f"board {event.board} has started already"
        if not 1 <= event.character <= self.settings.characters:
            return f"there is no character {event.character}"
        return None

    def refusal_of_count(self, event):
        if event.board not in self.boards:
            return f"board {event.board} has not started"
        if not 0 <= event.sender < self.settings.crew:
            return f"there is no board {event.sender}"
        if not 1 <= event.kind <= self.settings.kinds() or not 0 <= event.value <= self.settings.characters:
            return "there is no such word"
        if event.sender in self.honest and not self.has_posted(event.sender, event.kind, event.value):
            if self.settings.variant != "steady_may_be_forged":
                return f"board {event.sender} has not posted kind {event.kind} value {event.value}"
        return None

    def has_posted(self, board, kind, value):
        return board in self.boards and (kind, value) in self.boards[board].posted

    def add(self, event):
        """Takes a legal event."""
        if isinstance(event, Start):
            self.boards[event.board] = new_board(self.settings, event.character)
            self.characters[event.board] = event.character
        else:
            self.boards[event.board].count(event.sender, event.kind, event.value)
            self.counted.add(event)

    def decision(self, board):
        """The decision of an honest board, or None."""
        return self.boards[board].decision if board in self.boards else None

    def decisions(self):
        """The decisions there are, by board."""
        return {i: self.boards[i].decision for i in sorted(self.boards) if self.boards[i].decision is not None}

    def decided_characters(self):
        return {value for value, _ in self.decisions().values() if value != 0}

    def waiting(self):
        """The words of steady boards that a started steady board has still to count."""
        return [
            Count(to, sender, kind, value)
            for to in self.steady if to in self.boards
            for sender in self.steady if sender in self.boards
            for kind, value in sorted(self.boards[sender].posted)
            if (to, sender, kind, value) not in self.counted
        ]


# The promise. Each part tells what fails in a run, or None.

def one_step(a, b):
    """The decisions a and b are at most one step apart."""
    low, high = sorted((a, b), key=lambda decision: decision[1])
    if low == high:
        return True
    return (low == (0, 0) and high[1] == 1) or (low[0] == high[0] and (low[1], high[1]) == (1, 2))


def part_a(run):
    """Decisions of any two honest boards are at most one step apart."""
    decisions = run.decisions()
    for i in decisions:
        for j in decisions:
            if i < j and not one_step(decisions[i], decisions[j]):
                return f"board {i} decided {text(decisions[i])} and board {j} {text(decisions[j])}"
    return None


def part_b(run):
    """Each decision lies in the span of the starting characters of the honest boards that have started."""
    starts = set(run.characters.values())
    for i, (value, grade) in run.decisions().items():
        if len(starts) == 1 and (value, grade) != (min(starts), run.settings.depth):
            return f"all started with {min(starts)} and board {i} decided {value},{grade}"
        if value != 0 and value not in starts:
            return f"nobody started with {value} and board {i} decided {value},{grade}"
    return None


def part_d(run):
    """Where all steady boards have started and counted all words of steady boards, they have decided."""
    if any(i not in run.boards for i in run.steady) or run.waiting():
        return None
    for i in run.steady:
        if run.decision(i) is None:
            return f"all words of steady boards are counted and board {i} has not decided"
    return None


def part_c(so_far, one, another):
    """Once an honest board has decided, all ways on lead to the same character.

    `one` and `another` are runs that go on from the run `so_far`.
    """
    for i in one.characters.keys() & another.characters.keys():
        if one.characters[i] != another.characters[i]:
            return None
    if not so_far.decisions():
        return None
    for v in sorted(one.decided_characters()):
        for w in sorted(another.decided_characters()):
            if v != w:
                return f"a board had decided, and one way on leads to {v}, another to {w}"
    return None


# The parts that are asked of one run; C compares two.
STATE_PARTS = {"A": part_a, "B": part_b, "D": part_d}


def text(decision):
    return "undecided" if decision is None else "%d,%d" % decision


# Replays.

@dataclass
class Replay:
    run: Run
    used: int = 0  # how many events were legal
    illegal: str = None  # the first illegal event and why; the replay ends before it
    fails: dict = field(default_factory=dict)  # part -> what fails, of A, B and D


def replay(settings, events, each=True):
    """Replays events up to the first illegal one. Asks A, B and D at the end, and A and B after each event."""
    result = Replay(Run(settings))
    for event in events:
        why = result.run.refusal(event)
        if why is not None:
            result.illegal = f"{event}: {why}"
            break
        result.run.add(event)
        result.used += 1
        if each:
            note_failures(result, "AB")
    note_failures(result, "ABD")
    return result


def finish(result):
    """Goes on from a replay until all steady boards have started and counted all words of steady boards."""
    run = result.run
    character = min(run.characters.values(), default=1)
    due = [Start(i, character) for i in run.steady if i not in run.boards] or run.waiting()
    while due:
        for event in due:
            run.add(event)
            note_failures(result, "AB")
        due = run.waiting()
    note_failures(result, "ABD")


def note_failures(result, names):
    for name in names:
        why = STATE_PARTS[name](result.run) if name not in result.fails else None
        if why is not None:
            result.fails[name] = why


def fails_at_end(settings, name, sections):
    """What of this part of the promise fails at the end of a run, or None. The events are to be legal."""
    ends = [replay(settings, events, each=False) for events in ways_of(sections)]
    if any(end.illegal for end in ends):
        return None
    if name != "C":
        return ends[0].fails.get(name)
    so_far = replay(settings, sections[0], each=False).run
    return part_c(so_far, ends[0].run, ends[1].run)


def ways_of(sections):
    """The event lists that lead to an end of a run: one, or for C two."""
    if len(sections) == 1:
        return sections
    return [sections[0] + sections[1], sections[0] + sections[2]]


# Runs as text.

@dataclass
class Stored:
    settings: Settings
    fails: str  # A, B, C, D, or - for a run in which nothing fails
    sections: list  # one list of events, or for C three
    decided: list  # one dictionary from board to decision or None, or for C two


def read_run(path):
    with open(path, encoding="ascii") as file:
        lines = [line.rstrip("\n") for line in file]
    lines = [line for line in lines if line and not line.startswith("#")]
    head = {}
    while lines and ": " in lines[0]:
        key, value = lines.pop(0).split(": ")
        head[key] = value
    cut = lines.index("-- decided")
    sections = read_sections(lines[:cut])
    if len(sections) != (3 if head["fails"] == "C" else 1):
        raise ValueError("a run in which C fails has three sections, any other one")
    decided = read_decided(lines[cut + 1:], ways_on=len(sections) == 3)
    return Stored(read_settings(head), head["fails"], sections, decided)


def read_settings(head):
    numbers = {key: int(head[key]) for key in ("depth", "crew", "f", "cover", "characters")}
    listed = frozenset() if head["listed"] == "-" else frozenset(map(int, head["listed"].split(",")))
    return Settings(method=head["method"], variant=head["variant"], listed=listed, **numbers)


def read_event(line):
    words = line.split()
    if words[0] == "start" and len(words) == 3:
        return Start(int(words[1]), int(words[2]))
    if words[0::2] == ["count", "from", "kind", "value"]:
        return Count(*map(int, words[1::2]))
    raise ValueError(f"not an event: {line}")


def read_sections(lines):
    sections = [[]]
    for line in lines:
        if not line.startswith("-- "):
            sections[-1].append(read_event(line))
        elif line == f"-- {SECTIONS[0]}" and sections == [[]]:
            pass
        elif len(sections) < 3 and line == f"-- {SECTIONS[len(sections)]}":
            sections.append([])
        else:
            raise ValueError(f"out of place: {line}")
    return sections


def read_decided(lines, ways_on):
    decided = []
    for line in lines:
        if line in SECTIONS[1:]:
            decided.append({})
            continue
        if not decided:
            decided.append({})
        board, decision = line.removeprefix("board ").split(": ")
        pair = None if decision == "undecided" else tuple(map(int, decision.split(",")))
        decided[-1][int(board)] = pair
    if len(decided) != (2 if ways_on else 1):
        raise ValueError("the decisions are missing")
    return decided


def write_run(settings, fails, sections):
    """A run as text, with the decisions at its end."""
    lines = []
    for key in ("method", "variant", "depth", "crew", "f", "cover", "characters"):
        lines.append(f"{key}: {getattr(settings, key)}")
    lines.append("listed: " + (",".join(map(str, sorted(settings.listed))) or "-"))
    lines.append(f"fails: {fails}")
    for name, events in zip(SECTIONS, sections):
        lines += ([f"-- {name}"] if len(sections) == 3 else []) + [str(event) for event in events]
    lines.append("-- decided")
    for name, events in zip(SECTIONS[1:], ways_of(sections)):
        run = replay(settings, events, each=False).run
        lines += [name] if len(sections) == 3 else []
        lines += [f"board {i}: {text(run.decision(i))}" for i in run.honest]
    return "\n".join(lines) + "\n"


def exact(settings):
    """The same settings under the exact rules."""
    return replace(settings, variant=EXACT)
