"""Searches a small run in which the promise fails under a wrong variant: search.py VARIANT [options].

It plays many random runs, with schedules and lies of all sorts, and shrinks those that fail.
"""

import argparse
import itertools
import random
import sys

sys.dont_write_bytecode = True

from methods import VARIANTS, Settings
from runs import STATE_PARTS, Count, Run, Start, fails_at_end, part_a, part_b, replay, write_run


# Playing at random.

def draw_starts(rng, settings):
    """A starting character for every honest board: few different ones, or any."""
    choice = rng.sample(range(1, settings.characters + 1), rng.randint(1, settings.characters))
    return {i: rng.choice(choice) for i in settings.honest()}


def draw_favourites(rng, settings):
    """The value that each honest board is to hear most of, the same for all or not."""
    values = range(settings.characters + 1)
    if rng.random() < 0.3:
        return dict.fromkeys(settings.honest(), rng.choice(values))
    return {i: rng.choice(values) for i in settings.honest()}


def draw_lies(rng, settings, favourites):
    """What listed boards say in the echo method: mostly the favourites, or any values."""
    if settings.method == "plain" or rng.random() < 0.15:
        return []
    constancy = rng.choice((0, 0.5, 0.9, 1))
    share = rng.choice((0.1, 0.3, 0.6, 1))
    values = range(settings.characters + 1)
    lies = []
    for to, sender in itertools.product(settings.honest(), liars(settings)):
        said = [(1, v) for v in values if v == favourites[to] or rng.random() < (1 - constancy) / 2]
        for kind in range(2, settings.kinds() + 1):
            said.append((kind, favourites[to] if rng.random() < constancy else rng.choice(values)))
        lies += [Count(to, sender, kind, value) for kind, value in said if rng.random() < share]
    return lies


def liars(settings):
    """The boards in whose name anything may be said."""
    return range(settings.crew) if settings.variant == "steady_may_be_forged" else sorted(settings.listed)


def draw_speeds(rng, crew):
    """How readily a board counts the words of another; some boards hear little for long."""
    ears = [rng.choice((1, 1, 0.001)) for _ in range(crew)]
    return {(i, j): rng.choice((1, 1, 0.1, 0.01)) * ears[j] for i in range(crew) for j in range(crew)}


class Player:
    """Plays a run on: all starts, words and lies that are due come in a random order.

    Some links are slow, and some boards hear words of their favourite value first.
    In the plain method some links from listed boards are silent.
    """

    def __init__(self, rng, run, starts, favourites=None):
        self.rng, self.run = rng, run
        self.posted = {i: set() for i in run.honest}
        crew = range(run.settings.crew)
        self.speed = draw_speeds(rng, run.settings.crew)
        self.favourites = favourites or draw_favourites(rng, run.settings)
        self.bias = rng.choice((1, 0.1, 0.001))  # the speed of words of other values
        self.silent = {(i, j) for i in run.settings.listed for j in crew if j != i and rng.random() < 0.5}
        self.due = [Start(i, starts[i]) for i in run.honest if i not in run.boards]
        self.due += [lie for lie in draw_lies(rng, run.settings, self.favourites) if lie not in run.counted]
        for board in run.boards:
            self.post(board)

    def post(self, board):
        """Makes the new words of a board due at all honest boards."""
        news = sorted(self.run.boards[board].posted - self.posted[board])
        self.posted[board].update(news)
        for to in self.run.honest:
            if self.run.settings.method == "echo" or (board, to) not in self.silent:
                events = [Count(to, board, kind, value) for kind, value in news]
                self.due += [event for event in events if event not in self.run.counted]

    def speed_of(self, event):
        if isinstance(event, Start):
            return self.speed[event.board, event.board]
        liked = event.value == self.favourites[event.board]
        return self.speed[event.sender, event.board] * (1 if liked else self.bias)

    def pick(self):
        """The place of an event that is legal now, a fast one rather than a slow one."""
        for _ in range(40):
            place = self.rng.randrange(len(self.due))
            event = self.due[place]
            if self.rng.random() < self.speed_of(event) and self.run.refusal(event) is None:
                return place
        legal = [place for place, event in enumerate(self.due) if self.run.refusal(event) is None]
        return self.rng.choices(legal, [self.speed_of(self.due[place]) for place in legal])[0]

    def step(self):
        """Adds an event and returns it, or None if nothing is due."""
        if not self.due:
            return None
        place = self.pick()
        self.due[place], self.due[-1] = self.due[-1], self.due[place]
        event = self.due.pop()
        self.run.add(event)
        self.post(event.board)
        return event

    def play(self, stop=lambda run: False):
        """Plays on until `stop` holds or nothing is due; returns the events."""
        events = []
        while not stop(self.run):
            event = self.step()
            if event is None:
                break
            events.append(event)
        return events


# Finding a failure.

def play_one(rng, settings):
    """One random run: (part, event lists) for a failure, or None."""
    starts = draw_starts(rng, settings)
    run = Run(settings)
    broken = lambda run: part_a(run) or part_b(run)
    events = Player(rng, run, starts).play(broken)
    for name, part in STATE_PARTS.items():
        if part(run) is not None:
            return name, [events]
    return play_ways_on(rng, settings, starts, events)


def play_ways_on(rng, settings, starts, events):
    """Looks for a failure of C: cuts the run after a first decision and plays on towards each character."""
    first = first_decided(settings, events)
    if first is None:
        return None
    so_far = events[:first + rng.choice((0, 0, 2, 5))]
    found = {}
    for character in sorted(set(starts.values())) * 4:
        run = replay(settings, so_far, each=False).run
        favourites = dict.fromkeys(run.honest, character)
        more = Player(rng, run, starts, favourites).play(lambda run: run.decided_characters())
        for decided in run.decided_characters():
            found.setdefault(decided, more)
    if len(found) < 2:
        return None
    one, another = sorted(found)[:2]
    return "C", [so_far, found[one], found[another]]


def first_decided(settings, events):
    """How many events there are up to the first decision, or None."""
    run = Run(settings)
    for place, event in enumerate(events):
        run.add(event)
        if run.boards[event.board].decision is not None:
            return place + 1
    return None


# Shrinking.

def shrink(settings, sections, keeps, worth):
    """Makes a run smaller as long as `keeps` holds for it; tries hard only up to the size `worth`."""
    sections = shrink_by_one(settings, legal_part(settings, sections), keeps)
    while size(sections) <= worth:
        smaller = next((c for c in smaller_runs(settings, sections) if size(c) < size(sections) and keeps(c)), None)
        if smaller is None:
            break
        sections = shrink_by_one(settings, smaller, keeps)
    return sections


def size(sections):
    return sum(map(len, sections))


def places(sections):
    """All places of events, the last one first."""
    return [(p, e) for p, events in enumerate(sections) for e in range(len(events))][::-1]


def shrink_by_one(settings, sections, keeps):
    """Leaves out single events until none can be spared."""
    before = None
    while before != sections:
        before = sections
        for place in places(sections):
            smaller = legal_part(settings, without(sections, {place}))
            if keeps(smaller):
                sections = smaller
    return sections


def smaller_runs(settings, sections):
    """Candidates: an event shared, a word said by a listed board instead, two events left out."""
    yield from shared(settings, sections)
    for p, e in places(sections):
        for said in said_by_listed(settings, sections[p][e]):
            swapped = [list(events) for events in sections]
            swapped[p][e] = said
            for place in places(sections):
                if place != (p, e):
                    yield legal_part(settings, without(swapped, {place}))
    for pair in itertools.combinations(places(sections), 2):
        yield legal_part(settings, without(sections, set(pair)))


def shared(settings, sections):
    """For C: an event of both ways on goes to the run so far."""
    if len(sections) == 3:
        for event in sections[1]:
            if event in sections[2]:
                ways_on = [[e for e in events if e != event] for events in sections[1:]]
                yield legal_part(settings, [sections[0] + [event]] + ways_on)


def said_by_listed(settings, event):
    if settings.method == "echo" and isinstance(event, Count) and event.sender not in settings.listed:
        return [event._replace(sender=i) for i in sorted(settings.listed)]
    return []


def without(sections, places):
    return [[event for e, event in enumerate(events) if (p, e) not in places] for p, events in enumerate(sections)]


def legal_part(settings, sections):
    """Leaves out what is not legal any more, and words counted twice."""
    kept = []
    for p, events in enumerate(sections):
        run = replay(settings, kept[0] if p else [], each=False).run
        kept.append([])
        for event in events:
            if event not in run.counted and run.refusal(event) is None:
                run.add(event)
                kept[p].append(event)
    return kept


def tidy(settings, sections, keeps):
    """Brings events into an order that is easy to follow: starts first, then board by board."""
    for order in (grouped(settings, sections, starts_first=True), grouped(settings, sections, starts_first=False)):
        if keeps(order):
            return order
    return sections


def grouped(settings, sections, starts_first):
    """The same events, each board's in their old order, with few changes from board to board."""
    result = []
    for p, events in enumerate(sections):
        run = replay(settings, result[0] if p else [], each=False).run
        result.append([])
        rest, last = list(events), None
        while rest:
            ready = [e for k, e in enumerate(rest) if run.refusal(e) is None
                     and all(before.board != e.board for before in rest[:k])]
            rank = lambda e: (not (starts_first and isinstance(e, Start)), e.board != last, e.board)
            event = min(ready, key=rank)
            rest.remove(event)
            run.add(event)
            result[p].append(event)
            last = event.board
    return result


# The command.

def settings_of(variant):
    """Small settings for a variant."""
    method = VARIANTS[variant][0]
    cover = {"cover_two": 2, "plain_cover_one": 1}.get(variant, {"plain": 2, "echo": 3}[method])
    crew, f = {("echo", 3): (4, 1), ("plain", 1): (3, 2)}.get((method, cover), (3, 1))
    listed = frozenset([crew - 1]) if method == "echo" else frozenset()
    return [
        Settings(method, variant, depth, crew, f, cover, characters, listed)
        for depth in (1, 2) for characters in (1, 2, 3)
    ]


def search(variant, seed, tries, finds, wanted=None, report=lambda line: None):
    """The smallest failing run found: (settings, part, event lists), or None.

    Stops after so many tries, or after so many failing runs; `wanted` may name the part.
    """
    rng = random.Random(seed)
    best = None
    for _ in range(tries):
        settings = rng.choice(settings_of(variant))
        name, sections = play_one(rng, settings) or (None, None)
        if name is None or wanted not in (None, name):
            continue
        keeps = lambda sections: fails_at_end(settings, name, sections) is not None
        sections = shrink(settings, sections, keeps, worth=size(best[2]) + 3 if best else 1000)
        if best is None or size(sections) < size(best[2]):
            best = (settings, name, tidy(settings, sections, keeps))
            report(f"{name} fails after {size(sections)} events")
        finds -= 1
        if finds == 0:
            break
    return best


def main():
    parser = argparse.ArgumentParser(description="Search a small run in which the promise fails.")
    parser.add_argument("variant", choices=VARIANTS)
    parser.add_argument("--part", choices="ABCD", help="the part that is to fail")
    parser.add_argument("--seed", type=int, default=1)
    parser.add_argument("--tries", type=int, default=5000, help="random runs at most")
    parser.add_argument("--finds", type=int, default=10, help="failing runs at most")
    given = parser.parse_args()
    progress = lambda line: print(line, file=sys.stderr)
    best = search(given.variant, given.seed, given.tries, given.finds, given.part, progress)
    if best is None:
        print("nothing found")
        return 1
    print(write_run(*best), end="")
    return 0


if __name__ == "__main__":
    sys.exit(main())
