"""The plain and the echo method as one board follows them, exact or with one wrong change.

A word is (sender, kind, value); value 0 stands for no character.
A decision is (v, g), a character with a grade, or (0, 0).
"""

from dataclasses import dataclass

EXACT = "exact"

# Every wrong variant: its method, and the one thing that it changes.
VARIANTS = {
    "echoes_added_up": ("echo", "test 2 adds up the echoes of other values, several of one sender too"),
    "approval_on_strong": ("echo", "a value is approved when its echo senders are strong"),
    "third_kind_dropped": ("echo", "test 5 asks the words of kind 2 in place of kind 3"),
    "backed_without_fourth": ("echo", "test 7 decides (w, 1) without strong kind 4 senders of w"),
    "cover_two": ("echo", "the failure rule has cover 2 only"),
    "no_parted_test": ("echo", "test 2 is left out"),
    "parted_below_last": ("echo", "test 2 does not ask about the highest character"),
    "zero_never_third": ("echo", "test 4 never posts 0"),
    "outcome_zero_unmixed": ("echo", "test 5 has outcome 0 for a board that is not mixed, too"),
    "fifth_zero_unmixed": ("echo", "test 6 posts 0 for a board that is not mixed, too"),
    "no_nil_decision": ("echo", "test 7 never decides (0, 0)"),
    "steady_may_be_forged": ("echo", "a word of a steady board is counted though nobody posted it"),
    "plain_cover_one": ("plain", "the failure rule has cover 1 only"),
    "branch_of_any": ("plain", "the branch is the lowest character among the words of kind 1"),
    "branch_always_zero": ("plain", "the branch is always 0"),
    "zero_without_comparing": ("plain", "at depth 2 a board with branch 0 always decides (0, 0)"),
    "full_grade_always": ("plain", "at depth 2 a board with branch v always decides (v, 2)"),
    "branch_without_ample": ("plain", "the branch is fixed at the first word of kind 1"),
}


@dataclass(frozen=True)
class Settings:
    """What is fixed for a whole run. The failure rule is the count rule: at most f boards fail."""

    method: str
    variant: str
    depth: int
    crew: int
    f: int
    cover: int
    characters: int
    listed: frozenset

    def strong(self, boards):
        """The family lacks this set."""
        return len(boards) > self.f

    def ample(self, boards):
        """The rest of the crew is in the family."""
        return self.crew - len(boards) <= self.f

    def kinds(self):
        """How many kinds of words there are."""
        return {"plain": (1, 2), "echo": (3, 5)}[self.method][self.depth - 1]

    def needed_cover(self):
        if self.variant == "cover_two":
            return 2
        if self.variant == "plain_cover_one":
            return 1
        return {"plain": 2, "echo": 3}[self.method]

    def steady(self):
        return [i for i in range(self.crew) if i not in self.listed]

    def honest(self):
        """The boards that follow the method; in the plain method the listed ones only fall silent."""
        return list(range(self.crew)) if self.method == "plain" else self.steady()

    def refusal(self):
        """Why these settings are not allowed, or None."""
        if self.method not in ("plain", "echo") or self.depth not in (1, 2):
            return "no such method or depth"
        if self.variant != EXACT and VARIANTS.get(self.variant, ("",))[0] != self.method:
            return f"no variant {self.variant} of the {self.method} method"
        if self.crew < 1 or self.characters < 1 or self.f < 0:
            return "the crew or the characters are missing"
        if self.cover * self.f >= self.crew:
            return f"the rule does not have cover {self.cover}"
        if self.cover < self.needed_cover():
            return f"the {self.method} method needs cover {self.needed_cover()}"
        if not self.listed <= frozenset(range(self.crew)) or len(self.listed) > self.f:
            return "the listed boards are not in the family"
        return None


def new_board(settings, character):
    """A board at its start."""
    return (PlainBoard if settings.method == "plain" else EchoBoard)(settings, character)


class PlainBoard:
    def __init__(self, settings, character):
        self.settings = settings
        self.words = {1: {}, 2: {}}  # kind -> sender -> value
        self.posted = {(1, character)}  # (kind, value)
        self.branch = None
        self.decision = None

    def count(self, sender, kind, value):
        if sender in self.words[kind]:
            return
        self.words[kind][sender] = value
        if self.branch is None and self.gathered():
            self.fix_branch()
        if self.decision is None and self.branch is not None:
            self.decide()

    def gathered(self):
        if self.settings.variant == "branch_without_ample":
            return len(self.words[1]) > 0
        return self.settings.ample(self.words[1])

    def fix_branch(self):
        values = set(self.words[1].values())
        self.branch = min(values) if len(values) == 1 else 0
        if self.settings.variant == "branch_of_any":
            self.branch = min(values)
        if self.settings.variant == "branch_always_zero":
            self.branch = 0
        if self.settings.depth == 2:
            self.posted.add((2, self.branch))

    def decide(self):
        if self.settings.depth == 1:
            self.decision = graded(self.branch, 1)
        elif self.settings.ample(self.words[2]):
            self.decision = self.compare()

    def compare(self):
        """The decision at depth 2, from the words of kind 2."""
        values = set(self.words[2].values())
        if self.branch == 0:
            if self.settings.variant == "zero_without_comparing":
                return (0, 0)
            return graded(min(values - {0}, default=0), 1)
        if values == {self.branch} or self.settings.variant == "full_grade_always":
            return (self.branch, 2)
        return (self.branch, 1)


class EchoBoard:
    def __init__(self, settings, character):
        self.settings = settings
        self.echoes = {value: set() for value in range(settings.characters + 1)}  # value -> senders
        self.openings = {}  # sender -> value of the first echo counted
        self.words = {kind: {} for kind in (2, 3, 4, 5)}  # kind -> sender -> value
        self.posted = {(1, character)}  # (kind, value)
        self.approved = set()
        self.decision = None

    def count(self, sender, kind, value):
        if kind == 1:
            if sender in self.echoes[value]:
                return
            self.echoes[value].add(sender)
            self.openings.setdefault(sender, value)
        else:
            if sender in self.words[kind]:
                return
            self.words[kind][sender] = value
        self.make_tests()

    def make_tests(self):
        self.test_1_relay()
        self.test_2_parted()
        self.test_3_approve()
        self.test_4_third_kind()
        self.test_5_outcome()
        if self.settings.depth == 2:
            self.test_6_fifth_kind()
            if self.decision is None:
                self.test_7_decide()

    # What the tests ask.

    def changed(self, variant):
        return self.settings.variant == variant

    def has_posted(self, kind):
        return any(posted == kind for posted, _ in self.posted)

    def post_once(self, kind, value):
        if not self.has_posted(kind):
            self.posted.add((kind, value))

    def senders(self, kind, value):
        return {sender for sender, said in self.words[kind].items() if said == value}

    def all_ample(self, kind):
        """All senders of this kind together are ample."""
        return self.settings.ample(self.words[kind])

    def ample_value(self, kind):
        """The value whose senders of this kind are ample, or None."""
        if self.all_ample(kind):
            for value in sorted(set(self.words[kind].values())):
                if self.settings.ample(self.senders(kind, value)):
                    return value
        return None

    def mixed(self):
        return 0 in self.approved or len(self.approved) >= 2

    # The tests, in their order.

    def test_1_relay(self):
        for value, senders in self.echoes.items():
            if self.settings.strong(senders):
                self.posted.add((1, value))

    def test_2_parted(self):
        if self.changed("no_parted_test"):
            return
        last = self.settings.characters - self.changed("parted_below_last")
        if all(self.parted_from(value) for value in range(last + 1)):
            self.posted.add((1, 0))

    def parted_from(self, value):
        if self.changed("echoes_added_up"):
            return sum(len(senders) for v, senders in self.echoes.items() if v != value) > self.settings.f
        return self.settings.strong([s for s, opening in self.openings.items() if opening != value])

    def test_3_approve(self):
        enough = self.settings.strong if self.changed("approval_on_strong") else self.settings.ample
        self.approved |= {value for value, senders in self.echoes.items() if enough(senders)}
        if self.approved:
            self.post_once(2, min(self.approved))

    def test_4_third_kind(self):
        value = self.ample_value(2)
        if value is None and len(self.approved) >= 2:
            value = 0
        if value == 0 and self.changed("zero_never_third"):
            return
        if value is not None:
            self.post_once(3, value)

    def test_5_outcome(self):
        kind = 2 if self.changed("third_kind_dropped") else 3
        mixed = self.mixed() or self.changed("outcome_zero_unmixed")
        outcome = 0 if mixed and self.all_ample(kind) else self.ample_value(kind)
        if outcome is None:
            return
        if self.settings.depth == 2:
            self.post_once(4, outcome)
        elif self.decision is None:
            self.decision = graded(outcome, 1)

    def test_6_fifth_kind(self):
        value = self.ample_value(4)
        mixed = self.mixed() or self.changed("fifth_zero_unmixed")
        if value is None and mixed and self.all_ample(4):
            value = 0
        if value is not None:
            self.post_once(5, value)

    def test_7_decide(self):
        value = self.ample_value(5)
        backed = self.lowest_backed() if self.mixed() and self.all_ample(5) else None
        if value:
            self.decision = (value, 2)
        elif backed:
            self.decision = (backed, 1)
        elif value == 0 and not self.changed("no_nil_decision"):
            self.decision = (0, 0)

    def lowest_backed(self):
        """The lowest character with a kind 5 sender and strong kind 4 senders, or None."""
        for value in sorted(set(self.words[5].values()) - {0}):
            if self.settings.strong(self.senders(4, value)) or self.changed("backed_without_fourth"):
                return value
        return None


def graded(value, grade):
    """The decision for a value: 0 has no grade."""
    return (value, grade) if value else (0, 0)
